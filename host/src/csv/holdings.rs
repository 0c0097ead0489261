//! Holdings as CSV.

use super::columns::table;
use super::errors::CellErrors;
use super::leg::{head, marked_cells, marked_leg, COLUMNS, PAID};
use usm_values::{Leg, MOST_LEGS};

/// The holdings in a CSV, in the format [`super::FORMAT`] tells of, or all that is wrong with it.
///
/// ```
/// let csv = "Side;Contracts;Type;Strike;Expiry;Unit;Underlying;Style;Market\r\n\
///            long;10;call;62,5;2011-05-21;100;7;american;listed\r\n";
/// let holdings = usm::csv::parse_holdings(csv)?;
/// assert_eq!((holdings[0].contracts, holdings[0].strike), (10, 62_500));
///
/// let three_decimals = usm::csv::parse_holdings(&csv.replace("62,5", "1,060"))?;
/// assert_eq!(three_decimals[0].strike, 1_060, "in mills: a comma stands before decimals");
///
/// let errors = usm::csv::parse_holdings(&csv.replace("call", "cal")).unwrap_err();
/// assert_eq!(errors.to_string(), "row 2, column 3 (type): expected `call` or `put`, found `cal`");
/// # Ok::<(), usm::csv::CellErrors>(())
/// ```
pub fn parse_holdings(text: &str) -> Result<Vec<Leg>, CellErrors> {
    let columns: Vec<_> = COLUMNS.into_iter().chain([PAID]).collect();
    table(text, &columns, MOST_LEGS, "holdings", |row| marked_leg(row, 0))
}

/// The holdings as a CSV that [`parse_holdings`] reads.
pub fn show_holdings(holdings: &[Leg]) -> String {
    let rows = holdings.iter().map(|leg| format!("{}\n", marked_cells(leg)));
    head(COLUMNS.iter().chain([&PAID])) + &rows.collect::<String>()
}
