//! Refusals 6, 11, 12 and 21: what a group as a whole lacks to be a spread, or to be fit for a cash account.

use super::legs::{named, Placed, OF_PLACEMENT};
use crate::text::date_text;
use usm_values::numbers::grouped;
use usm_values::{Leg, OptionType, Reason, Settlement, Side, Style, MOST_CLAIMS};

pub fn sentence(placement: &[Leg], group: u64, reason: Reason) -> Option<String> {
    let legs = legs_of(placement, group);
    let wrong = match reason {
        Reason::NoLeg if (1..=MOST_CLAIMS as u64).contains(&group) => {
            String::from("has no leg in the placement")
        }
        Reason::NoLeg => {
            return Some(format!("there is no group {group}: groups are numbered 1 to {MOST_CLAIMS}"))
        }
        Reason::CallUnitsUnequal => unequal(&legs, OptionType::Call, "call"),
        Reason::PutUnitsUnequal => unequal(&legs, OptionType::Put, "put"),
        Reason::NotFitForCash => unfit(&legs)?,
        _ => return None,
    };
    Some(format!("group {group} {wrong}"))
}

/// The first leg that keeps the group from a cash account.
fn unfit(legs: &[Placed]) -> Option<String> {
    let first = legs.first()?;
    let why = |leg: &Leg| {
        if leg.style != Style::European {
            Some(String::from("is american and must be european"))
        } else if leg.settlement != Settlement::Cash {
            Some(String::from("must be stated as `cash`"))
        } else if leg.expiry != first.1.expiry {
            Some(format!("must expire on {}, as the first of the group", date_text(first.1.expiry)))
        } else {
            None
        }
    };
    let (leg, why) = legs.iter().find_map(|placed| why(placed.1).map(|why| (*placed, why)))?;
    Some(format!("is not fit for a cash account: {} {why}", named(leg, OF_PLACEMENT)))
}

fn unequal(legs: &[Placed], option_type: OptionType, name: &str) -> String {
    let (long, short) = units(legs, option_type);
    format!(
        "has {} long {name} units and {} short {name} units; they must be equal \
         (a leg's units are its contracts times its unit size)",
        grouped(long),
        grouped(short),
    )
}

/// The units of one type that a group's legs are long, and those that they are short.
pub fn units(legs: &[Placed], option_type: OptionType) -> (i64, i64) {
    let of_side = |side| -> i64 {
        let counted = legs.iter().filter(|(_, leg)| leg.side == side && leg.option_type == option_type);
        counted.map(|(_, leg)| leg.units()).sum()
    };
    (of_side(Side::Long), of_side(Side::Short))
}

/// The legs of a group, with their places.
pub fn legs_of(placement: &[Leg], group: u64) -> Vec<Placed<'_>> {
    (0..).zip(placement).filter(|(_, leg)| group > 0 && u64::from(leg.group) == group).collect()
}
