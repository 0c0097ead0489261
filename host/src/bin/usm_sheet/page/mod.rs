//! `sheet page`: a page of one or more sheets that a customer can look at, whole in one file.

mod blocks;
mod change;
mod contents;
mod drawing;
mod frame;
mod group;
mod html;
mod legs;
mod marks;
mod refused;
mod scale;
mod sheets;
mod table;

use std::ffi::{OsStr, OsString};
use std::fs;
use std::process::ExitCode;

use usm::{Form, LONGEST_FILE};

use crate::check::{judge, Tally};
use crate::files::asked;
use crate::found::Found;
use crate::input::{is_sheet_file, read_into};
use crate::inputs::same_file;
use crate::make::write;
use crate::program::{self, shown};
use sheets::Told;

/// Makes the page of these files. What could not be read is told on the page, too.
pub fn page(names: &[OsString], out_name: &OsStr, force: bool) -> Result<ExitCode, String> {
    check_name(names, out_name)?;
    let mut tally = Tally::default();
    let mut file = Vec::with_capacity(LONGEST_FILE + 1);
    let mut sheets = Vec::with_capacity(names.len());
    for (row, asked) in asked(names, &[])?.iter().enumerate() {
        let (name, found) = judge(&mut file, asked);
        tally.count(&found);
        sheets.push(Told::of(row + 1, name, &file, found));
    }
    let unread: Vec<String> = sheets.iter().filter_map(|told| unread(&told.found)).collect();
    write(out_name, frame::page(sheets, &tally).as_bytes(), force)?;
    for message in unread {
        program::tell(&format!("sheet: {message}"));
    }
    if tally.status() != 0 {
        program::tell(&format!("{}: {}", shown(out_name), tally.summary()));
    }
    Ok(ExitCode::from(tally.status()))
}

fn unread(found: &Found) -> Option<String> {
    match found {
        Found::Unread(message) => Some(message.clone()),
        _ => None,
    }
}

/// The page is the last name. Where it was forgotten, the last sheet file is not written over.
fn check_name(names: &[OsString], out_name: &OsStr) -> Result<(), String> {
    if is_sheet_file(out_name) || names.iter().any(|name| same_file(name, out_name)) {
        return Err(format!(
            "{}: is the name of a sheet; behind the sheets comes the name of the page, as page.html",
            shown(out_name)
        ));
    }
    match has_mark(out_name) {
        true => Err(format!(
            "{}: is a sheet file, and is not written over; name another file for the page, as page.html",
            shown(out_name)
        )),
        false => Ok(()),
    }
}

/// Whether a file is there that begins as a sheet file does. Only of a regular one is anything read: a pipe would wait.
fn has_mark(name: &OsStr) -> bool {
    let mut start = Vec::new();
    name != "-"
        && fs::metadata(name).map_or(false, |about| about.is_file())
        && read_into(&mut start, name, Form::Old.mark().len()).is_ok()
        && Form::of_block(&start).is_some()
}
