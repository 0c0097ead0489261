//! Sheets from before the paid mark, taken through the pass that sets it.

use std::ffi::OsStr;
use std::process::ExitCode;

use usm::numbers::grouped;
use usm::sentences;

use crate::input::sheet;
use crate::inputs::not_over_itself;
use crate::make::write;
use crate::program::{self, shown};

/// Marks every unplaced long as paid; form, account and all else stay.
pub fn mark_paid(name: &OsStr, out_name: &OsStr, force: bool) -> Result<ExitCode, String> {
    let named = |what: String| format!("{}: {what}", shown(name));
    not_over_itself(name, out_name)?;
    let mut sheet = sheet(name)?;
    let marks = sheet.mark_paid();
    let file = marks.and_then(|marks| Ok((marks, sheet.to_file()?)));
    let (marks, file) = file.map_err(|refusal| {
        named(format!("refusal {}: {}", refusal.number, sentences::of_sheet(&sheet, &refusal)))
    })?;
    write(out_name, &file, force)?;
    let longs = if marks == 1 { "unplaced long" } else { "unplaced longs" };
    program::tell(&named(format!("{} {longs} marked as paid", grouped(marks))));
    Ok(ExitCode::SUCCESS)
}
