//! Groups put into one never need more, unless they make a European long box (document 02, [13]): tried on accepted
//! sheets whose groups often fit together.

use std::fmt::Display;

use usm::{leg_table, margin, Leg, OptionType, Sheet, Side};
use usm_kit::accounts::in_group;
use usm_kit::model;

use crate::random::Random;
use crate::{boxes, compare, laws, sheets, spreads};

/// An accepted sheet with two groups or more, most of which may be joined.
pub fn sheet(random: &mut Random) -> Sheet {
    let groups = match random.below(3) {
        0 => cut_box(random),
        _ => alike(random),
    };
    let numbered =
        (1..).zip(groups).flat_map(|(group, legs)| legs.into_iter().map(move |leg| in_group(group, leg)));
    let placement = numbered.collect();
    sheets::of_placement(random, placement)
}

/// A European long box, or nearly one, as calls and puts in two groups, or in two groups as it is.
fn cut_box(random: &mut Random) -> Vec<Vec<Leg>> {
    loop {
        let legs = boxes::near(random);
        let groups = match random.below(4) {
            0 => vec![legs.clone(), legs],
            _ => {
                let (calls, puts) = legs.iter().partition(|leg| leg.option_type == OptionType::Call);
                vec![calls, puts]
            }
        };
        if groups.iter().all(|legs| is_spread(legs)) {
            return groups;
        }
    }
}

fn is_spread(legs: &[Leg]) -> bool {
    let legs: Vec<Leg> = legs.iter().map(|leg| in_group(1, *leg)).collect();
    margin(&leg_table(&legs), 1).is_ok()
}

/// Spreads of one underlying, style and market, whose shorts expire on one day; at times one is not as the others.
fn alike(random: &mut Random) -> Vec<Vec<Leg>> {
    let terms = spreads::terms(random);
    (0..2 + random.below(4))
        .map(|_| {
            let mut legs = spreads::any(random);
            let own = random.below(40);
            let shorts_expire = legs.iter().filter(|leg| leg.side == Side::Short).map(|leg| leg.expiry).max();
            for leg in &mut legs {
                let calendar = Some(leg.expiry) > shorts_expire;
                leg.underlying = if own == 0 { leg.underlying } else { terms.underlying };
                leg.style = if own == 1 { leg.style } else { terms.style };
                leg.market = if own == 2 { leg.market } else { terms.market };
                if own != 3 {
                    leg.expiry = if calendar { 20110618 } else { 20110521 };
                }
            }
            legs
        })
        .collect()
}

/// Two groups of an accepted sheet in one: where they are a spread, the sheet with its claims restated is accepted
/// and needs no more, or the group is a European long box. Answers the number of the refusal, or 0.
pub fn never_costs_more(case: &dyn Display, random: &mut Random, sheet: &Sheet) -> u64 {
    let before = sheet.check().expect("an accepted sheet");
    let g = 1 + random.below(before.groups as usize) as u64;
    let k = 1 + (g + random.below(before.groups as usize - 1) as u64) % before.groups;
    let mut joined = sheet.joined(g, k).expect("two spreads");
    if let Err(refusal) = joined.claim_margins() {
        assert!(matches!(refusal.number, 7..=10 | 13), "{case}: {g} and {k}: units stay even, {refusal:?}");
        return refusal.number;
    }
    assert_eq!(compare::check_sheet(case, &joined.tables()), 0, "{case}: {g} and {k} joined");
    laws::margins_are_reached(case, &joined);
    let after = joined.check().expect("accepted, as was just compared");
    assert_eq!(after.groups, before.groups - 1, "{case}");
    let of_group = |leg: &&Leg| u64::from(leg.group) == g.min(k);
    let legs: Vec<Leg> = joined.placement.iter().filter(of_group).copied().collect();
    let long_box = model::boxes::aggregate_difference(&legs).is_some();
    assert!(long_box || after.total <= before.total, "{case}: {g} and {k}: {before:?}, then {after:?}");
    0
}
