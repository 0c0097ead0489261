//! Faults that the rules of a spread or of a sheet find: each field stays in its range.

use usm::{Claim, Tables, GREATEST_AMOUNT, RECORD_BYTES};
use usm_kit::accounts::{in_group, leg, paid};
use usm_kit::fields::*;

use crate::random::Random;

/// Refusals 5 and 6: claims out of order, one too few or too many.
pub fn numbering(random: &mut Random, tables: &mut Tables) {
    let count = records(&tables.claims);
    match random.below(4) {
        0 if count > 0 => tables.claims.truncate((count - 1) * RECORD_BYTES),
        1 if count > 0 => {
            let record = random.below(count);
            put(&mut tables.claims, record, GROUP, random.between(1, 32).into());
        }
        2 if count > 1 => {
            let (one, two) = (random.below(count), random.below(count));
            let (group_one, group_two) = (get(&tables.claims, one, GROUP), get(&tables.claims, two, GROUP));
            put(&mut tables.claims, one, GROUP, group_two);
            put(&mut tables.claims, two, GROUP, group_one);
        }
        _ => {
            let claim = Claim { group: count as u16 + 1, margin: random.between(0, 1) as i64 };
            tables.claims.extend_from_slice(&claim.to_bytes());
        }
    }
}

/// Refusals 7 to 9 and 11 to 14: one field of one leg says something else, in range.
pub fn other_terms(random: &mut Random, tables: &mut Tables) {
    let count = records(&tables.placement);
    if count == 0 {
        return;
    }
    let record = random.below(count);
    let field = random
        .pick(&[SIDE, TYPE, STYLE, MARKET, UNIT_SIZE, UNDERLYING, STRIKE, EXPIRY, CONTRACTS, SETTLEMENT]);
    let old = get(&tables.placement, record, field);
    let new = match field {
        SIDE | TYPE | STYLE | MARKET => 3 - old.min(2),
        SETTLEMENT => random.below(3) as u64,
        UNIT_SIZE => random.pick(&[1, 10, 100, 1_000]),
        UNDERLYING => random.pick(&[1, 2, old ^ 0x0100_0000, old ^ 1]),
        STRIKE => random.pick(&[old + 1, old.max(2) - 1, 60_000]),
        EXPIRY => random.pick(&[20000101, 20110521, 20110618, 20991231]),
        _ => random.pick(&[old + 1, old.max(2) - 1, 1, 100_000]),
    };
    put(&mut tables.placement, record, field, new);
    if random.one_in(3) && record < records(&tables.holdings) {
        put(&mut tables.holdings, record, field, new);
    }
}

/// A leg wanders to another group, to one above all claims, or out of the groups.
pub fn other_group(random: &mut Random, tables: &mut Tables) {
    let (legs, claims) = (records(&tables.placement), records(&tables.claims));
    if legs == 0 {
        return;
    }
    let record = random.below(legs);
    let group = match random.below(4) {
        0 => claims as u64 + 1,
        1 => random.between(0, 33).into(),
        _ => random.below(claims + 1) as u64,
    };
    if random.one_in(4) {
        // The whole group goes: 6 for the one left empty.
        let old = get(&tables.placement, record, GROUP);
        for other in (0..legs).filter(|&other| other != record) {
            if get(&tables.placement, other, GROUP) == old {
                put(&mut tables.placement, other, GROUP, group);
            }
        }
    }
    put(&mut tables.placement, record, GROUP, group);
}

/// Refusal 10: a leg takes over the series of another, which may be of its own group.
pub fn doubled_series(random: &mut Random, tables: &mut Tables) {
    let count = records(&tables.placement);
    if count < 2 {
        return;
    }
    let (one, two) = (random.below(count), random.below(count));
    for field in [TYPE, STRIKE, EXPIRY, UNIT_SIZE] {
        if random.one_in(8) {
            continue; // nearly the same series
        }
        let value = get(&tables.placement, one, field);
        put(&mut tables.placement, two, field, value);
    }
}

/// Refusal 15: a short, or a long that is not paid, in both tables that no group takes; or a paid long, which
/// may stand there.
pub fn unplace(random: &mut Random, tables: &mut Tables) {
    let [short, long] = ["S60p", "L60p"].map(|notation| in_group(0, leg(notation)));
    let unplaced = random.pick(&[short, paid(short), long, paid(long)]).to_bytes();
    let at = random.below(records(&tables.placement) + 1) * RECORD_BYTES;
    tables.placement.splice(at..at, unplaced);
    if !random.one_in(4) {
        tables.holdings.extend_from_slice(&unplaced);
    }
}

/// Refusal 15: the mark of a record of the placement says something else, or its group is taken from it.
pub fn other_mark(random: &mut Random, tables: &mut Tables) {
    let count = records(&tables.placement);
    if count > 0 {
        let record = random.below(count);
        let mark = get(&tables.placement, record, PAID);
        put(&mut tables.placement, record, PAID, 1 - mark.min(1));
        if random.one_in(2) {
            (0..count).for_each(|record| put(&mut tables.placement, record, PAID, random.below(2) as u64));
        }
    }
}

/// Refusal 16: a claim a mill or a world away from the margin.
pub fn other_claim(random: &mut Random, tables: &mut Tables) {
    let count = records(&tables.claims);
    if count == 0 {
        return;
    }
    let record = random.below(count);
    let old = get(&tables.claims, record, CLAIM_MARGIN);
    let new =
        random.pick(&[old.wrapping_add(1), old.wrapping_sub(1), 0, GREATEST_AMOUNT as u64, old ^ 1 << 40]);
    put(&mut tables.claims, record, CLAIM_MARGIN, new);
}
