//! Refusals 5 and 14 to 16: what a sheet's records say, and what they should.

use super::boxes::of_margin;
use crate::sheet::Sheet;
use crate::text::{leg_text, placed_text, side_name};
use usm_values::numbers::{amount, count, ordinal};
use usm_values::{Leg, Reason, Refusal, Side};

pub fn sentence(sheet: &Sheet, refusal: &Refusal, reason: Reason) -> Option<String> {
    let place = usize::try_from(refusal.place).ok()?;
    let at = ordinal(refusal.place);
    match (reason, refusal.table) {
        (Reason::GroupsMisnumbered, 3) => misnumbered(sheet, place),
        (Reason::GroupsMisnumbered, 2) => {
            let leg = sheet.placement.get(place)?;
            let claims = match sheet.claims.len() {
                0 => String::from("there is no claim"),
                claims => format!("the last claim is for group {claims}"),
            };
            let (text, group) = (placed_text(leg), leg.group);
            Some(format!("the {at} record of the placement (`{text}`) is in group {group}, but {claims}"))
        }
        (Reason::ContractsDiffer, 1) => {
            let leg = sheet.holdings.get(place)?;
            Some(format!("the {at} record of the holdings (`{}`): {}", leg_text(leg), contracts(sheet, leg)))
        }
        (Reason::ContractsDiffer, 2) => {
            let leg = sheet.placement.get(place)?;
            Some(format!(
                "the {at} record of the placement (`{}`): {}",
                placed_text(leg),
                contracts(sheet, leg)
            ))
        }
        (Reason::NotPlaced, 2) => {
            let leg = sheet.placement.get(place)?;
            let why = match leg.side {
                Side::Short => "is a short in no group; only longs may be unplaced",
                Side::Long => "is a long in no group that is not marked as `paid`",
            };
            Some(format!("the {at} record of the placement (`{}`) {why}", placed_text(leg)))
        }
        _ => None,
    }
}

fn misnumbered(sheet: &Sheet, place: usize) -> Option<String> {
    let claim = sheet.claims.get(place)?;
    Some(format!(
        "the {} claim (`claim {} {}`) is for group {} and should be for group {}: \
         claims are numbered 1, 2 and so on",
        ordinal(place as u64),
        claim.group,
        claim.margin,
        claim.group,
        place + 1,
    ))
}

fn contracts(sheet: &Sheet, leg: &Leg) -> String {
    let side = side_name(leg.side);
    let (held, placed) = held_and_placed(sheet, leg);
    let (held, placed) = (count(held, "contract"), count(placed, "contract"));
    format!("of this line the holdings have {held} {side} and the placement has {placed} {side}")
}

/// Contracts of the leg's line and side.
pub fn held_and_placed(sheet: &Sheet, leg: &Leg) -> (u64, u64) {
    let sum = |legs: &[Leg]| -> u64 {
        let same = legs.iter().filter(|other| other.line() == leg.line() && other.side == leg.side);
        same.map(|other| u64::from(other.contracts)).sum()
    };
    (sum(&sheet.holdings), sum(&sheet.placement))
}

/// What is claimed for a group, and its margin.
pub fn claimed_and_due(sheet: &Sheet, group: u64) -> Option<(i64, i64)> {
    let claim = sheet.claims.iter().find(|claim| u64::from(claim.group) == group)?;
    Some((claim.margin, sheet.margin(group).ok()?))
}

pub fn claim_sentence(sheet: &Sheet, group: u64) -> Option<String> {
    let (claimed, due) = claimed_and_due(sheet, group)?;
    let due = of_margin(due, &sheet.worksheet(group).ok()?);
    Some(format!("group {group} claims {}; its margin is {due}", amount(claimed)))
}
