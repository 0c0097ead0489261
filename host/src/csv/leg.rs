//! The cells of a leg, for both ways.

use super::columns::{needed, optional, Column, Row};
use super::errors::CellError;
use crate::text::{date, strike, words_of, EXPIRY, STRIKE};
use crate::text::{MARKETS, SETTLEMENTS, SIDES, STYLES, TYPES};
use usm_values::{Leg, Settlement, GREATEST_UNIT_SIZE, MOST_CONTRACTS};

/// The columns of a leg that has no paid mark, in the order in which they are written.
pub const COLUMNS: [Column; 10] = [
    needed("side"),
    needed("contracts"),
    needed("type"),
    needed("strike"),
    needed("expiry"),
    needed("unit"),
    needed("underlying"),
    needed("style"),
    needed("market"),
    optional("settlement"),
];

/// The column of the paid mark.
pub const PAID: Column = optional("paid");

/// A leg of this group, without a paid mark.
pub fn leg(row: &Row, group: u16) -> Result<Leg, CellError> {
    Ok(Leg {
        group,
        side: row.choose("side", SIDES)?,
        contracts: row.number("contracts", 1..=MOST_CONTRACTS)?,
        option_type: row.choose("type", TYPES)?,
        strike: strike(&row.decimal("strike")).ok_or_else(|| row.wrong("strike", STRIKE))?,
        expiry: expiry(row.cell("expiry")).ok_or_else(|| row.wrong("expiry", EXPIRY))?,
        unit_size: row.number("unit", 1..=GREATEST_UNIT_SIZE)?,
        underlying: row.number("underlying", 1..=u32::MAX)?,
        style: row.choose("style", STYLES)?,
        market: row.choose("market", MARKETS)?,
        settlement: row.choose_or("settlement", SETTLEMENTS, Settlement::NotStated)?,
        paid: false,
    })
}

/// A leg that may be marked as paid.
pub fn marked_leg(row: &Row, group: u16) -> Result<Leg, CellError> {
    let paid = row.choose_or(PAID.name, [("yes", true), ("no", false)], false)?;
    leg(row, group).map(|leg| Leg { paid, ..leg })
}

/// A date as in a text, or its eight digits alone.
fn expiry(cell: &str) -> Option<u32> {
    let dashed = match (cell.get(..4), cell.get(4..6), cell.get(6..8)) {
        (Some(year), Some(month), Some(day)) if cell.len() == 8 => format!("{year}-{month}-{day}"),
        _ => String::from(cell),
    };
    date(&dashed)
}

/// The names of these columns as the first row.
pub fn head<'a>(columns: impl IntoIterator<Item = &'a Column>) -> String {
    let names: Vec<&str> = columns.into_iter().map(|column| column.name).collect();
    format!("{}\n", names.join(","))
}

/// The cells of a leg, in the order of [`COLUMNS`].
pub fn cells(leg: &Leg) -> String {
    words_of(leg).join(",")
}

/// The same, and the paid mark.
pub fn marked_cells(leg: &Leg) -> String {
    format!("{},{}", cells(leg), if leg.paid { "yes" } else { "" })
}
