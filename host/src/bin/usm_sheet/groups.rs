//! The margins of a sheet's groups, the cash they require in a cash account, and the worksheet of one.

use std::collections::BTreeSet;
use std::ffi::OsStr;
use std::process::ExitCode;

use usm::numbers::dollars;
use usm::{sentences, Reason, Refusal, Sheet};

use crate::arguments::number_of;
use crate::input::sheet_with_origin;
use crate::json::{refused, Object};
use crate::output::print;
use crate::plot;
use crate::program::{self, shown};

/// An amount that a group has.
struct Asked {
    /// What it is called in JSON.
    key: &'static str,
    of: fn(&Sheet, u64) -> Result<i64, Refusal>,
}

/// The margin of each group that is placed or claimed; of a group that is no spread, why.
pub fn margins(name: &OsStr, json: bool) -> Result<ExitCode, String> {
    amounts(name, &Asked { key: "margin", of: Sheet::margin }, json)
}

/// The cash required for each group; of a group that is not fit for a cash account, why.
pub fn cash(name: &OsStr, json: bool) -> Result<ExitCode, String> {
    amounts(name, &Asked { key: "cash", of: Sheet::cash }, json)
}

/// A group, and its amount or why it has none.
type Amount = (u64, Result<i64, Refusal>);

fn amounts(name: &OsStr, asked: &Asked, json: bool) -> Result<ExitCode, String> {
    let (sheet, origin) = sheet_with_origin(name)?;
    let amounts: Vec<Amount> =
        groups(&sheet).into_iter().map(|group| (group, (asked.of)(&sheet, group))).collect();
    let all_spreads = amounts.iter().all(|(_, amount)| amount.is_ok());
    if json {
        let of_groups = amounts.iter().map(|amount| object(&sheet, asked.key, amount));
        let object = Object::of(name).origin(Some(origin)).with("groups", of_groups.collect::<Vec<Object>>());
        print(&object.line())?;
        return Ok(status(all_spreads));
    }
    if amounts.is_empty() {
        program::tell(&format!("{}: no group is placed or claimed", shown(name)));
    }
    print(&table(&sheet, &amounts))?;
    Ok(status(all_spreads))
}

fn object(sheet: &Sheet, key: &str, (group, amount): &Amount) -> Object {
    let refusal = amount.as_ref().err();
    Object::new()
        .with("group", *group)
        .with(key, amount.as_ref().ok().copied())
        .with("refusal", refusal.map(|refusal| refused(refusal, &sentences::of_sheet(sheet, refusal))))
}

/// A line for each group, the amounts below each other.
fn table(sheet: &Sheet, amounts: &[Amount]) -> String {
    let known = || amounts.iter().filter_map(|(_, amount)| amount.as_ref().ok());
    let mills_width = known().map(|amount| amount.to_string().len()).max().unwrap_or(0);
    let dollars_width = known().map(|amount| dollars(*amount).len()).max().unwrap_or(0);
    let line = |(group, amount): &Amount| {
        let amount = match amount {
            Ok(amount) => {
                format!("{amount:>mills_width$} mills  {:>dollars_width$}", dollars(*amount))
            }
            Err(refusal) => no_spread(sheet, refusal),
        };
        format!("group {group:>2}  {amount}\n")
    };
    amounts.iter().map(line).collect()
}

/// The groups of the placement and of the claims, ascending.
pub fn groups(sheet: &Sheet) -> BTreeSet<u64> {
    let placed = sheet.placement.iter().map(|leg| leg.group).filter(|group| *group > 0);
    placed.chain(sheet.claims.iter().map(|claim| claim.group)).map(u64::from).collect()
}

/// Why a group has no margin, or is not fit for a cash account.
pub fn no_spread(sheet: &Sheet, refusal: &Refusal) -> String {
    let what = match refusal.reason() {
        Some(Reason::NotFitForCash) => "not for cash",
        _ => "no spread",
    };
    format!("{what}, refusal {}: {}", refusal.number, sentences::of_sheet(sheet, refusal))
}

fn status(all_spreads: bool) -> ExitCode {
    ExitCode::from(if all_spreads { 0 } else { 1 })
}

/// Strikes, nets and a plot of them.
pub fn worksheet(name: &OsStr, group: &OsStr, json: bool) -> Result<ExitCode, String> {
    let number = number_of("a group", group)?;
    let (sheet, origin) = sheet_with_origin(name)?;
    let rows = sheet.worksheet(number);
    let margin = sheet.margin(number);
    if json {
        let refusal = margin.err().map(|refusal| refused(&refusal, &sentences::of_sheet(&sheet, &refusal)));
        let strikes = rows.as_ref().ok().map(|rows| rows.iter().map(row_object).collect::<Vec<Object>>());
        let object = Object::of(name).origin(Some(origin)).with("group", number);
        let object = object.with("margin", margin.ok()).with("strikes", strikes).with("refusal", refusal);
        print(&object.line())?;
        return Ok(status(rows.is_ok()));
    }
    match rows.and_then(|rows| Ok((rows, margin?))) {
        Ok((rows, margin)) => {
            let head = format!("group {number}, margin {}\n", sentences::of_margin(margin, &rows));
            print(&(head + &plot::table(&rows)))
        }
        Err(refusal) => {
            program::tell(&format!("{}: {}", shown(name), no_spread(&sheet, &refusal)));
            Ok(status(false))
        }
    }
}

fn row_object((strike, net): &(u32, i64)) -> Object {
    Object::new().with("strike", u64::from(*strike)).with("net", *net)
}
