//! "The rule of a spread": one group's legs, its worksheet and its margin.

use std::collections::BTreeSet;

use super::boxes;
use usm_values::{Leg, OptionType, Refusal, Settlement, Side, Style, Table, MOST_CLAIMS};

/// One row of a worksheet.
pub struct Row {
    pub strike: u32,
    pub net: i64,
}

/// The legs of group `g`: the records with that group, in their order.
fn legs_of(records: &[Leg], g: u64) -> Vec<Leg> {
    records.iter().copied().filter(|leg| u64::from(leg.group) == g).collect()
}

/// What a refusal's place counts.
enum Names {
    Group,
    Record,
}

/// A condition that legs break, its number, and what its refusal names.
type Condition = (u64, Names, fn(&[Leg]) -> bool);

/// 7 to 13 of "Refusals in their order", with what document 02, [14], has each of them name.
const CONDITIONS: [Condition; 7] = [
    (7, Names::Record, |legs| differ(legs, |leg| leg.underlying)),
    (8, Names::Record, |legs| differ(legs, |leg| leg.style)),
    (9, Names::Record, |legs| differ(legs, |leg| leg.market)),
    (10, Names::Record, a_series_is_doubled),
    (11, Names::Group, |legs| units_are_unequal(legs, OptionType::Call)),
    (12, Names::Group, |legs| units_are_unequal(legs, OptionType::Put)),
    (13, Names::Record, a_short_outlives_a_long),
];

/// The legs of group `g` if they are a spread, or the first of 6 to 13.
pub fn of_group(placement: &[Leg], g: u64) -> Result<Vec<Leg>, Refusal> {
    let refused = |number, place| Err(Refusal::new(number, Table::Placement.number(), place));
    let legs = legs_of(placement, g);
    if legs.is_empty() || !(1..=MOST_CLAIMS as u64).contains(&g) {
        return refused(6, g);
    }
    match CONDITIONS.into_iter().find(|(_, _, broken)| broken(&legs)) {
        None => Ok(legs),
        Some((number, Names::Group, _)) => refused(number, g),
        Some((number, Names::Record, broken)) => refused(number, breaking_record(placement, g, broken)),
    }
}

/// "The lowest record such that the group's legs up to and with it already break that condition", of a
/// condition that the whole group breaks.
fn breaking_record(placement: &[Leg], g: u64, broken: fn(&[Leg]) -> bool) -> u64 {
    let already = |&record: &usize| broken(&legs_of(&placement[..=record], g));
    (0..placement.len()).find(already).expect("the whole group breaks it") as u64
}

fn differ<T: PartialEq>(legs: &[Leg], field: fn(&Leg) -> T) -> bool {
    legs.iter().any(|leg| field(leg) != field(&legs[0]))
}

/// Whether some series is both long and short.
fn a_series_is_doubled(legs: &[Leg]) -> bool {
    let on = |side| legs.iter().filter(move |leg| leg.side == side);
    on(Side::Long).any(|long| on(Side::Short).any(|short| short.series() == long.series()))
}

fn units_are_unequal(legs: &[Leg], option_type: OptionType) -> bool {
    let on = |side| {
        let counted = legs.iter().filter(|leg| leg.option_type == option_type && leg.side == side);
        counted.map(Leg::units).sum::<i64>()
    };
    on(Side::Long) != on(Side::Short)
}

/// Whether the latest short expiry is later than the earliest long expiry.
fn a_short_outlives_a_long(legs: &[Leg]) -> bool {
    let expiries = |side| legs.iter().filter(move |leg| leg.side == side).map(|leg| leg.expiry);
    match (expiries(Side::Short).max(), expiries(Side::Long).min()) {
        (Some(latest_short), Some(earliest_long)) => latest_short > earliest_long,
        _ => false,
    }
}

/// The net at price `price`: longs add units times intrinsic value, shorts subtract it.
fn net(legs: &[Leg], price: u32) -> i64 {
    legs.iter()
        .map(|leg| {
            let intrinsic = match leg.option_type {
                OptionType::Call => price.saturating_sub(leg.strike),
                OptionType::Put => leg.strike.saturating_sub(price),
            };
            let value = leg.units() * i64::from(intrinsic);
            match leg.side {
                Side::Long => value,
                Side::Short => -value,
            }
        })
        .sum()
}

/// The net at each distinct strike, ascending.
pub fn worksheet(legs: &[Leg]) -> Vec<Row> {
    let mut strikes: Vec<u32> = legs.iter().map(|leg| leg.strike).collect();
    strikes.sort_unstable();
    strikes.dedup();
    strikes.into_iter().map(|strike| Row { strike, net: net(legs, strike) }).collect()
}

/// The margin by document 01: the greatest of 0 and the losses at the exercise prices.
fn worst_loss(legs: &[Leg]) -> i64 {
    worksheet(legs).iter().map(|row| -row.net).max().unwrap_or(0).max(0)
}

/// Half of what a European long box is about, a half mill rounded up; of all other spreads the worst loss.
pub fn margin(legs: &[Leg]) -> i64 {
    match boxes::aggregate_difference(legs) {
        Some(mills) => (mills + 1) / 2,
        None => worst_loss(legs),
    }
}

/// "Cash accounts", document 02, [7]: the margin by document 01 of a spread that is all European, all stated
/// as cash and of one expiry; or 21.
pub fn cash(legs: &[Leg], g: u64) -> Result<i64, Refusal> {
    let fit = |leg: &Leg| {
        leg.style == Style::European && leg.settlement == Settlement::Cash && leg.expiry == legs[0].expiry
    };
    if legs.iter().all(fit) {
        Ok(worst_loss(legs))
    } else {
        Err(Refusal::new(21, Table::Placement.number(), g))
    }
}

/// "How much work a sheet may cause", document 02, [12]: one intrinsic value for each leg of group `g` and each
/// distinct strike of it.
pub fn work(placement: &[Leg], g: u64) -> u64 {
    let legs = legs_of(placement, g);
    let distinct: BTreeSet<u32> = legs.iter().map(|leg| leg.strike).collect();
    (legs.len() * distinct.len()) as u64
}

/// The margins of groups 1 to `n`, or the refusal of the lowest that is no spread.
pub fn margins(placement: &[Leg], n: u64) -> Result<Vec<i64>, Refusal> {
    (1..=n).map(|g| of_group(placement, g).map(|legs| margin(&legs))).collect()
}
