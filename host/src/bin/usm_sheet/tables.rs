//! Tables taken to CSV and back, for a spreadsheet.

use std::ffi::OsStr;
use std::process::ExitCode;

use usm::{csv, text};

use crate::arguments::quoted;
use crate::input::{csv_table, fills_in, sheet_or_holdings};
use crate::inputs::{not_over_itself, tell_account_left_out};
use crate::make::write;
use crate::usage;

/// The table of a sheet file, of a sheet's text or of a text of fills as CSV.
pub fn to_csv(table: &OsStr, name: &OsStr, out_name: &OsStr, force: bool) -> Result<ExitCode, String> {
    not_over_itself(name, out_name)?;
    let (account, csv) = match table.to_str() {
        Some("fills") => (0, csv::show_fills(&fills_in(name)?)),
        Some(table @ ("holdings" | "placement")) => {
            let sheet = sheet_or_holdings(name)?;
            let csv = match table {
                "holdings" => csv::show_holdings(&sheet.holdings),
                _ => csv::show_placement(&sheet.placement),
            };
            (sheet.account, csv)
        }
        _ => return Err(no_table(table, "to-csv")),
    };
    write(out_name, csv.as_bytes(), force)?;
    tell_account_left_out(name, account);
    Ok(ExitCode::SUCCESS)
}

/// A CSV as the section of a text.
pub fn from_csv(table: &OsStr, name: &OsStr, out_name: &OsStr, force: bool) -> Result<ExitCode, String> {
    not_over_itself(name, out_name)?;
    let text = match table.to_str() {
        Some("holdings") => text::show_holdings(&csv_table(name, csv::parse_holdings)?),
        Some("placement") => text::show_placement(&csv_table(name, csv::parse_placement)?),
        Some("fills") => text::show_fills(&csv_table(name, csv::parse_fills)?),
        _ => return Err(no_table(table, "from-csv")),
    };
    write(out_name, text.as_bytes(), force)?;
    Ok(ExitCode::SUCCESS)
}

fn no_table(word: &OsStr, command: &str) -> String {
    format!("expected `holdings`, `placement` or `fills`, found {}; {}", quoted(word), usage::line(command))
}
