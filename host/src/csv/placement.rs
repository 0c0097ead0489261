//! A placement as CSV.

use super::columns::{needed, table, Column, Row};
use super::errors::{CellError, CellErrors};
use super::leg::{head, marked_cells, marked_leg, COLUMNS, PAID};
use crate::text::digits;
use usm_values::{Leg, MOST_CLAIMS, MOST_LEGS};

const GROUP: Column = needed("group");

/// What stands for a group where a leg is in none.
const UNPLACED: &str = "unplaced";

/// The placement in a CSV, in the format [`super::FORMAT`] tells of, or all that is wrong with it.
pub fn parse_placement(text: &str) -> Result<Vec<Leg>, CellErrors> {
    let columns: Vec<_> = [GROUP].into_iter().chain(COLUMNS).chain([PAID]).collect();
    table(text, &columns, MOST_LEGS, "records in the placement", |row| marked_leg(row, group(row)?))
}

fn group(row: &Row) -> Result<u16, CellError> {
    let cell = row.cell(GROUP.name);
    let number = digits(cell).and_then(|number| u16::try_from(number).ok());
    let placed = number.filter(|group| (1..=MOST_CLAIMS).contains(&usize::from(*group)));
    match placed {
        _ if cell.eq_ignore_ascii_case(UNPLACED) => Ok(0),
        Some(group) => Ok(group),
        None => Err(row.wrong(GROUP.name, &format!("a group from 1 to {MOST_CLAIMS}, or `{UNPLACED}`"))),
    }
}

/// The placement as a CSV that [`parse_placement`] reads.
///
/// ```
/// let csv = "group,side,contracts,type,strike,expiry,unit,underlying,style,market,settlement,paid\n\
///            1,long,10,call,60.000,2011-05-21,100,7,american,listed,cash,\n\
///            unplaced,long,1,put,50.500,2011-05-21,100,7,european,otc,,yes\n";
/// assert_eq!(usm::csv::show_placement(&usm::csv::parse_placement(csv)?), csv);
/// # Ok::<(), usm::csv::CellErrors>(())
/// ```
pub fn show_placement(placement: &[Leg]) -> String {
    let rows = placement.iter().map(|leg| match leg.group {
        0 => format!("{UNPLACED},{}\n", marked_cells(leg)),
        group => format!("{group},{}\n", marked_cells(leg)),
    });
    head([&GROUP].into_iter().chain(&COLUMNS).chain([&PAID])) + &rows.collect::<String>()
}
