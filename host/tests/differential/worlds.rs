//! Tables made of chance: bytes without sense, and worlds too small to be sensible.

use usm::{leg_table, Claim, Leg, Market, OptionType, Settlement, Sheet, Side, Style, Tables, RECORD_BYTES};
use usm_kit::accounts::in_group;
use usm_kit::model;

use crate::random::Random;

/// Bytes without sense: of any length, random or mostly zero.
pub fn garbage(random: &mut Random) -> Tables {
    let table = |random: &mut Random| {
        let records = match random.below(16) {
            0 => 255 + random.below(3),
            1 => 31 + random.below(3),
            _ => random.below(8),
        };
        let stray = if random.one_in(4) { random.below(32) } else { 0 };
        let greatest = random.pick(&[2, 3, 255]);
        (0..records * RECORD_BYTES + stray).map(|_| random.between(0, greatest) as u8).collect()
    };
    Tables { holdings: table(random), placement: table(random), claims: table(random) }
}

/// A world so small that random legs often nearly balance: every refusal from 5 to 16
/// comes up, and so does acceptance.
pub fn tiny_world(random: &mut Random) -> Tables {
    let groups = random.below(3) as u16;
    let leg = |random: &mut Random| Leg {
        group: if random.one_in(40) { groups + 1 } else { random.between(0, groups.into()) as u16 },
        side: random.pick(&[Side::Long, Side::Short]),
        option_type: random.pick(&[OptionType::Call, OptionType::Call, OptionType::Put]),
        style: if random.one_in(16) { Style::European } else { Style::American },
        market: if random.one_in(16) { Market::Otc } else { Market::Listed },
        unit_size: if random.one_in(8) { 10 } else { 100 },
        underlying: if random.one_in(16) { 2 } else { 1 },
        strike: random.pick(&[50, 60, 70]),
        expiry: if random.one_in(6) { 20110618 } else { 20110521 },
        contracts: random.between(1, 2),
        settlement: if random.one_in(8) { Settlement::Cash } else { Settlement::NotStated },
        paid: !random.one_in(4),
    };
    let mut placement: Vec<Leg> = (0..random.below(9)).map(|_| leg(random)).collect();
    if random.one_in(2) {
        // Pairs that balance, so that more worlds get past 11 and 12.
        for at in (1..placement.len()).step_by(2) {
            let Leg { group, option_type, unit_size, contracts, .. } = placement[at - 1];
            placement[at - 1].side = Side::Long;
            placement[at] =
                Leg { group, side: Side::Short, option_type, unit_size, contracts, ..placement[at] };
        }
    }
    let mut holdings: Vec<Leg> = placement.iter().map(|leg| in_group(0, *leg)).collect();
    random.shuffle(&mut holdings);
    if random.one_in(6) && !holdings.is_empty() {
        let at = random.below(holdings.len());
        holdings[at] = in_group(0, leg(random));
    }
    let mut claims = Vec::new();
    for group in 1..=groups {
        let by_model = model::margin(&leg_table(&placement), u64::from(group));
        let margin = if random.one_in(4) { 1_000 } else { by_model.unwrap_or(0) };
        claims.push(Claim { group, margin });
    }
    Sheet { holdings, placement, claims, ..Sheet::default() }.tables()
}
