//! From a text or from CSVs to a sheet file, and back.

use std::ffi::OsStr;
use std::process::ExitCode;

use usm::{csv, sentences, text, Leg, Sheet};

use crate::input::{csv_table, holdings_in, is_csv, is_sheet_file, sheet, Kind};
use crate::inputs::{not_over_itself, two_inputs};
use crate::output::Output;
use crate::program::{self, shown};
use crate::warnings::tell_of_small;

pub fn make(text_name: &OsStr, out_name: &OsStr, force: bool) -> Result<ExitCode, String> {
    not_over_itself(text_name, out_name)?;
    let sheet = holdings_in(text_name)?;
    write(out_name, &file_of(&sheet, text_name)?, force)?;
    tell_of_small(text_name, &sheet);
    Ok(ExitCode::SUCCESS)
}

/// Makes a sheet without claims of two CSVs.
pub fn make_of_tables(
    holdings: &OsStr,
    placement: &OsStr,
    out_name: &OsStr,
    force: bool,
) -> Result<ExitCode, String> {
    two_inputs([("the holdings", holdings), ("the placement", placement)], out_name)?;
    let sheet = Sheet {
        holdings: csv_table(holdings, csv::parse_holdings)?,
        placement: csv_table(placement, csv::parse_placement)?,
        ..Sheet::default()
    };
    write(out_name, &file_of(&sheet, holdings)?, force)?;
    if !sheet.placement.is_empty() {
        program::tell(&format!(
            "{}: there are no claims yet; `sheet claim FILE OUT` fills them in",
            shown(out_name)
        ));
    }
    Ok(ExitCode::SUCCESS)
}

/// A sheet as what the name asks for by its ending, or else as what it was read from.
pub fn made(sheet: &Sheet, kind: Kind, name: &OsStr, out_name: &OsStr) -> Result<Vec<u8>, String> {
    // What has no file is no sheet as a text, either.
    let file = file_of(sheet, name)?;
    Ok(match stays_text(kind, out_name) {
        true => text::show(sheet).into_bytes(),
        false => file,
    })
}

/// Whether what is made of a text is one again.
pub fn stays_text(kind: Kind, out_name: &OsStr) -> bool {
    matches!(kind, Kind::Text { .. }) && !is_sheet_file(out_name)
}

/// Holdings as what the name asks for by its ending: a sheet file, a CSV, or else a text.
pub fn made_holdings(
    account: u64,
    holdings: Vec<Leg>,
    name: &OsStr,
    out_name: &OsStr,
) -> Result<Vec<u8>, String> {
    if is_sheet_file(out_name) {
        return file_of(&Sheet { account, holdings, ..Sheet::default() }, name);
    }
    Ok(match is_csv(out_name) {
        true => csv::show_holdings(&holdings),
        false => text::show_held(account, &holdings),
    }
    .into_bytes())
}

/// The file of a sheet that was read under this name.
pub fn file_of(sheet: &Sheet, name: &OsStr) -> Result<Vec<u8>, String> {
    sheet.to_file().map_err(|refusal| match refusal.number {
        1 => format!("{}: there is no record in it, and an empty sheet has no file", shown(name)),
        number => format!("{}: refusal {number}: {}", shown(name), sentences::of_sheet(sheet, &refusal)),
    })
}

/// Writes what was made to a file or to standard output.
pub fn write(name: &OsStr, bytes: &[u8], force: bool) -> Result<(), String> {
    match name.to_str() {
        Some("-") => print(bytes),
        _ => program::write(name.as_ref(), bytes, force),
    }
}

/// Prints a sheet file as text, or only what it holds.
pub fn show(name: &OsStr, only_holdings: bool) -> Result<ExitCode, String> {
    let sheet = sheet(name)?;
    let text = match only_holdings {
        true => text::show_held(sheet.account, &sheet.holdings),
        false => text::show(&sheet),
    };
    print(text.as_bytes()).map(|()| ExitCode::SUCCESS)
}

fn print(bytes: &[u8]) -> Result<(), String> {
    let mut output = Output::new();
    output.print(bytes)?;
    output.end()
}
