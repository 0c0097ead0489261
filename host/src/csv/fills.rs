//! A day's fills as CSV.

use super::columns::{needed, table, Column};
use super::errors::CellErrors;
use super::leg::{cells, head, leg, COLUMNS};
use crate::text::{name_of, ACTIONS};
use usm_values::{Fill, MOST_FILLS};

const ACTION: Column = needed("action");

/// The fills in a CSV, in the format [`super::FORMAT`] tells of, or all that is wrong with it.
pub fn parse_fills(text: &str) -> Result<Vec<Fill>, CellErrors> {
    let columns: Vec<_> = [ACTION].into_iter().chain(COLUMNS).collect();
    table(text, &columns, MOST_FILLS, "fills", |row| {
        Ok(Fill { action: row.choose(ACTION.name, ACTIONS)?, leg: leg(row, 0)? })
    })
}

/// The fills as a CSV that [`parse_fills`] reads.
///
/// ```
/// let csv = "action,side,contracts,type,strike,expiry,unit,underlying,style,market,settlement\n\
///            close,short,2,call,65.000,2011-05-21,100,7,american,listed,physical\n";
/// assert_eq!(usm::csv::show_fills(&usm::csv::parse_fills(csv)?), csv);
/// # Ok::<(), usm::csv::CellErrors>(())
/// ```
pub fn show_fills(fills: &[Fill]) -> String {
    let rows = fills.iter().map(|fill| format!("{},{}\n", name_of(fill.action, ACTIONS), cells(&fill.leg)));
    head([&ACTION].into_iter().chain(&COLUMNS)) + &rows.collect::<String>()
}
