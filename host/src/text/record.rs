//! The words of one record: a leg or a claim.

use super::errors::TextError;
use super::names::{ACTIONS, MARKETS, SETTLEMENTS, SIDES, STYLES, TYPES};
use super::values::{a_margin, date, margin, strike, EXPIRY, STRIKE};
use super::words::Words;
use usm_values::{Claim, Fill, Leg, Settlement, GREATEST_UNIT_SIZE, MOST_CLAIMS, MOST_CONTRACTS};

pub fn holding(words: &mut Words) -> Result<Leg, TextError> {
    leg(0, ", or the section `placement` or `claims`", true, words)
}

pub fn placed_leg(words: &mut Words) -> Result<Leg, TextError> {
    let placed = words.choose([("group", true), ("unplaced", false)], ", or the section `claims`")?;
    let group = if placed { group(words)? } else { 0 };
    leg(group, "", true, words)
}

pub fn fill(words: &mut Words) -> Result<Fill, TextError> {
    let action = words.choose(ACTIONS, "")?;
    leg(0, "", false, words).map(|leg| Fill { action, leg })
}

pub fn claim(words: &mut Words) -> Result<Claim, TextError> {
    words.word("claim")?;
    let group = group(words)?;
    let margin = words.value(&a_margin(), margin)?;
    Ok(Claim { group, margin })
}

fn group(words: &mut Words) -> Result<u16, TextError> {
    words.number("a group", 1..=MOST_CLAIMS as u16)
}

/// A leg from its side on; `or_else` tells what else the line might have started with. A fill has no paid mark.
fn leg(group: u16, or_else: &str, may_be_paid: bool, words: &mut Words) -> Result<Leg, TextError> {
    let side = words.choose(SIDES, or_else)?;
    let contracts = words.number("contracts", 1..=MOST_CONTRACTS)?;
    let option_type = words.choose(TYPES, "")?;
    let strike = words.value(STRIKE, strike)?;
    let expiry = words.value(EXPIRY, date)?;
    let unit_size = unit_size(words)?;
    let underlying = underlying(words)?;
    let style = words.choose(STYLES, "")?;
    let market = words.choose(MARKETS, "")?;
    let settlement = settlement(words);
    let paid = may_be_paid && words.flag("paid");
    Ok(Leg {
        group,
        side,
        option_type,
        style,
        market,
        unit_size,
        underlying,
        strike,
        expiry,
        contracts,
        settlement,
        paid,
    })
}

pub fn unit_size(words: &mut Words) -> Result<u16, TextError> {
    words.word("unit")?;
    words.number("a unit size", 1..=GREATEST_UNIT_SIZE)
}

pub fn underlying(words: &mut Words) -> Result<u32, TextError> {
    words.word("underlying")?;
    words.number("an underlying", 1..=u32::MAX)
}

pub fn settlement(words: &mut Words) -> Settlement {
    words.optional(SETTLEMENTS).unwrap_or(Settlement::NotStated)
}
