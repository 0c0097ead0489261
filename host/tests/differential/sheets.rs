//! Sheets that document 01 accepts, of all sizes and shapes.

use usm::{leg_table, Claim, Leg, Sheet, Side, MOST_CLAIMS, MOST_CONTRACTS, MOST_LEGS};
use usm_kit::accounts::{in_group, paid};
use usm_kit::model;

use crate::random::Random;
use crate::spreads;

/// A sheet to be accepted: mostly small, at times full.
pub fn valid(random: &mut Random) -> Sheet {
    let groups = match random.below(100) {
        0..=4 => 0,
        5..=69 => 1 + random.below(3),
        70..=95 => 1 + random.below(12),
        _ => 1 + random.below(MOST_CLAIMS),
    };
    let one_giant = random.one_in(120);
    let mut placement = Vec::new();
    let mut previous: Vec<Leg> = Vec::new();
    for group in 1..=if one_giant { 1 } else { groups } {
        let legs = if one_giant {
            spreads::giant(random)
        } else if !previous.is_empty() && random.one_in(4) {
            previous.clone() // the same lines once more, placed in a second group
        } else {
            spreads::any(random)
        };
        if placement.len() + legs.len() > MOST_LEGS {
            break;
        }
        previous = legs.clone();
        placement.extend(legs.into_iter().map(|leg| in_group(group as u16, leg)));
    }
    of_placement(random, placement)
}

/// An accepted sheet of these groups, each of which is a spread.
pub fn of_placement(random: &mut Random, mut placement: Vec<Leg>) -> Sheet {
    unplaced_longs(random, &mut placement);
    split_records(random, &mut placement);
    if random.one_in(2) {
        random.shuffle(&mut placement);
    }
    let (holdings, claims) = (holdings_of(random, &placement), claims_of(&placement));
    Sheet { holdings, placement, claims, ..Sheet::default() }
}

/// The margins that the model finds for a placement's groups, each of which is a spread.
pub fn claims_of(placement: &[Leg]) -> Vec<Claim> {
    let groups = placement.iter().map(|leg| leg.group).max().unwrap_or(0);
    let mut margins = vec![0; groups.into()];
    model::margins(&leg_table(placement), groups.into(), &mut margins).expect("each group is a spread");
    (1..).zip(margins).map(|(group, margin)| Claim { group, margin }).collect()
}

/// Longs that are not placed, and paid: lines of their own, or more of a placed line.
fn unplaced_longs(random: &mut Random, placement: &mut Vec<Leg>) {
    while placement.len() < MOST_LEGS && random.one_in(3) {
        let leg = if !placement.is_empty() && random.one_in(2) {
            random.pick(placement)
        } else {
            let [strike, ..] = spreads::strikes(random);
            Leg { strike, ..spreads::terms(random) }
        };
        placement.push(paid(Leg { side: Side::Long, ..leg }));
    }
}

/// Cuts some records in two: a line held or placed in two records is ordinary.
fn split_records(random: &mut Random, legs: &mut Vec<Leg>) {
    while legs.len() < MOST_LEGS && !legs.is_empty() && random.one_in(2) {
        let at = random.below(legs.len());
        let contracts = legs[at].contracts;
        if contracts >= 2 {
            let part = random.between(1, contracts - 1);
            legs[at].contracts -= part;
            legs.push(Leg { contracts: part, ..legs[at] });
        }
    }
}

/// Holdings with the same sums by line and side: merged, split and in another order.
fn holdings_of(random: &mut Random, placement: &[Leg]) -> Vec<Leg> {
    let merge = random.one_in(2);
    let mut holdings: Vec<Leg> = Vec::new();
    for leg in placement {
        let same = |held: &&mut Leg| {
            held.line() == leg.line()
                && held.side == leg.side
                && held.contracts + leg.contracts <= MOST_CONTRACTS
        };
        match holdings.iter_mut().find(same) {
            Some(held) if merge => held.contracts += leg.contracts,
            // Marks in holdings are free.
            _ => holdings.push(Leg { paid: random.one_in(3), ..in_group(0, *leg) }),
        }
    }
    split_records(random, &mut holdings);
    if random.one_in(2) {
        random.shuffle(&mut holdings);
    }
    holdings
}
