//! Two groups of a sheet put into one.

use std::ffi::{OsStr, OsString};
use std::process::ExitCode;

use usm::numbers::amount;
use usm::{sentences, Sheet};

use crate::arguments::number_of;
use crate::groups::no_spread;
use crate::input::sheet;
use crate::inputs::not_over_itself;
use crate::make::{file_of, write};
use crate::program::{self, shown};

/// Writes the sheet with the two groups in one, and tells what it needs then; form, account and holdings stay.
pub fn join(name: &OsStr, groups: [&OsString; 2], out_name: &OsStr, force: bool) -> Result<ExitCode, String> {
    let named = |what: String| format!("{}: {what}", shown(name));
    let [g, k] = groups.map(|group| number_of("a group", group));
    let (g, k) = (g?, k?);
    if g == k {
        return Err(format!("two groups are joined, and group {g} is named twice"));
    }
    not_over_itself(name, out_name)?;
    match joined(&sheet(name)?, g, k) {
        Ok((sheet, said)) => {
            write(out_name, &file_of(&sheet, name)?, force)?;
            program::tell(&named(said));
            Ok(ExitCode::SUCCESS)
        }
        Err(why) => {
            program::tell(&named(why));
            Ok(ExitCode::from(1))
        }
    }
}

/// The joined sheet and what is said of it; or why there is none.
fn joined(sheet: &Sheet, g: u64, k: u64) -> Result<(Sheet, String), String> {
    let before = sheet.check().map_err(|refusal| {
        let sentence = sentences::of_sheet(sheet, &refusal);
        format!("refused before any join, refusal {}: {sentence}", refusal.number)
    })?;
    let mut joined = sheet.joined(g, k).map_err(|refusal| no_spread(sheet, &refusal))?;
    let after = joined
        .claim_margins()
        .and_then(|()| joined.check())
        .map_err(|refusal| format!("groups {g} and {k} put into one are {}", no_spread(&joined, &refusal)))?;
    let (lower, higher) = (g.min(k), g.max(k));
    let above = if higher < before.groups { ", and the groups above move down by one" } else { "" };
    let (was, is) = (amount(before.total), amount(after.total));
    let costs = if after.total > before.total {
        let margin = joined.margin(lower).and_then(|margin| Ok((margin, joined.worksheet(lower)?)));
        let (margin, rows) = margin.map_err(|refusal| no_spread(&joined, &refusal))?;
        format!("this join costs more: group {lower} has margin {}", sentences::of_margin(margin, &rows))
    } else {
        String::from("joining never costs more, unless it makes a European long box")
    };
    let said = format!(
        "groups {g} and {k} are now group {lower}{above}; total margin {was} before, {is} after; {costs}"
    );
    Ok((joined, said))
}
