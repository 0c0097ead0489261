//! "The rule of a sheet": a placement and its claims against the holdings.

use std::collections::HashMap;

use super::spread;
use super::tables::Records;
use usm_values::{Accepted, Claim, Leg, Line, Refusal, Side, Table};

/// The verdict on decoded tables: 5, then groups ascending, then 14, 15 and 16.
pub fn judge(sheet: &Records) -> Result<Accepted, Refusal> {
    check_numbering(&sheet.placement, &sheet.claims)?;
    let groups = sheet.claims.len() as u64;
    let margins = spread::margins(&sheet.placement, groups)?;
    check_sums(&sheet.holdings, &sheet.placement)?;
    check_shorts_are_placed(&sheet.placement)?;
    check_claims(&sheet.claims, &margins)?;
    let work = (1..=groups).map(|g| spread::work(&sheet.placement, g)).sum();
    Ok(Accepted { groups, total: margins.iter().sum(), work })
}

/// Refusal 5: every claim first, then every placed record.
fn check_numbering(placement: &[Leg], claims: &[Claim]) -> Result<(), Refusal> {
    let misnumbered =
        claims.iter().enumerate().position(|(index, claim)| usize::from(claim.group) != index + 1);
    if let Some(place) = misnumbered {
        return refuse(5, Table::Claims, place);
    }
    match placement.iter().position(|leg| usize::from(leg.group) > claims.len()) {
        Some(place) => refuse(5, Table::Placement, place),
        None => Ok(()),
    }
}

/// Refusal 14: for each line and side, contracts held equal contracts in the placement.
fn check_sums(holdings: &[Leg], placement: &[Leg]) -> Result<(), Refusal> {
    let mut excess: HashMap<(Line, Side), i64> = HashMap::new();
    for leg in holdings {
        *excess.entry((leg.line(), leg.side)).or_default() += i64::from(leg.contracts);
    }
    for leg in placement {
        *excess.entry((leg.line(), leg.side)).or_default() -= i64::from(leg.contracts);
    }
    let differs = |leg: &Leg| excess[&(leg.line(), leg.side)] != 0;
    if let Some(place) = holdings.iter().position(differs) {
        return refuse(14, Table::Holdings, place);
    }
    match placement.iter().position(differs) {
        Some(place) => refuse(14, Table::Placement, place),
        None => Ok(()),
    }
}

/// Refusal 15: an unplaced long is free if it is marked as paid (document 02, [8]), an unplaced short never.
fn check_shorts_are_placed(placement: &[Leg]) -> Result<(), Refusal> {
    let free = |leg: &Leg| leg.side == Side::Long && leg.paid;
    match placement.iter().position(|leg| leg.group == 0 && !free(leg)) {
        Some(place) => refuse(15, Table::Placement, place),
        None => Ok(()),
    }
}

/// Refusal 16: its place is the group, counted from 1.
fn check_claims(claims: &[Claim], margins: &[i64]) -> Result<(), Refusal> {
    match claims.iter().zip(margins).position(|(claim, margin)| claim.margin != *margin) {
        Some(index) => refuse(16, Table::Claims, index + 1),
        None => Ok(()),
    }
}

fn refuse(number: u64, table: Table, place: usize) -> Result<(), Refusal> {
    Err(Refusal::new(number, table.number(), place as u64))
}
