//! What is read: sheet files, texts and CSVs, never more than one byte past the longest.

use std::ffi::OsStr;
use std::fmt::Display;
use std::fs::File;
use std::io::{self, Read};
use std::path::Path;

use usm::text::Errors;
use usm::{csv, sentences, text, Fill, Form, Origin, Sheet, LONGEST_FILE};

use crate::program::{not_empty, shown, Stream};

/// More than any sheet's text needs; it keeps a wrong file from filling the memory.
const LONGEST_TEXT: usize = 1 << 20;

/// All of a file or of standard input, but no more than one byte past `most`, into an empty buffer.
pub fn read_into(bytes: &mut Vec<u8>, name: &OsStr, most: usize) -> Result<(), String> {
    not_empty(name)?;
    let failed = |error: io::Error| format!("{}: cannot be read: {error}", shown(name));
    let source: Box<dyn Read> = match name.to_str() {
        Some("-") => Box::new(Stream::input()),
        _ => Box::new(File::open(name).map_err(failed)?),
    };
    bytes.clear();
    source.take(most as u64 + 1).read_to_end(bytes).map_err(failed)?;
    Ok(())
}

/// The sheet in a file, judged only as far as the reader does.
pub fn sheet(name: &OsStr) -> Result<Sheet, String> {
    sheet_with_origin(name).map(|(sheet, _)| sheet)
}

/// The same, with form and account.
pub fn sheet_with_origin(name: &OsStr) -> Result<(Sheet, Origin), String> {
    let mut file = Vec::new();
    read_into(&mut file, name, LONGEST_FILE)?;
    sheet_in(name, &file)
}

fn sheet_in(name: &OsStr, file: &[u8]) -> Result<(Sheet, Origin), String> {
    Sheet::with_origin(file).map_err(|refusal| {
        format!("{}: refusal {}: {}", shown(name), refusal.number, sentences::of_file(file, &refusal))
    })
}

/// What a sheet was read from.
#[derive(Clone, Copy, PartialEq, Eq)]
pub enum Kind {
    File,
    Text { comments: bool },
}

/// The sheet in a file or in a text. The blocks of a file have zero bytes, and a text has none.
pub fn sheet_and_kind(name: &OsStr) -> Result<(Sheet, Kind), String> {
    let bytes = read_bytes(name)?;
    if bytes.contains(&0) {
        return sheet_in(name, &bytes).map(|(sheet, _)| (sheet, Kind::File));
    }
    let text = text_in(name, bytes)?;
    let kind = Kind::Text { comments: text.contains('#') };
    Ok((text_sheet(name, text)?, kind))
}

fn text_sheet(name: &OsStr, text: String) -> Result<Sheet, String> {
    text::parse(&text).map_err(|errors| told(name, &errors))
}

/// Whether a name says that the file is a CSV.
pub fn is_csv(name: &OsStr) -> bool {
    ends_in(name, "csv")
}

/// Whether a name says that the file is a sheet file.
pub fn is_sheet_file(name: &OsStr) -> bool {
    ends_in(name, "usm")
}

fn ends_in(name: &OsStr, ending: &str) -> bool {
    Path::new(name).extension().map_or(false, |found| found.eq_ignore_ascii_case(ending))
}

/// A table of a CSV, read by `parse`.
pub fn csv_table<T>(
    name: &OsStr,
    parse: fn(&str) -> Result<Vec<T>, csv::CellErrors>,
) -> Result<Vec<T>, String> {
    parse(&read_text(name)?).map_err(|errors| told(name, &errors))
}

/// The sheet in a text, or the holdings in a CSV.
pub fn holdings_in(name: &OsStr) -> Result<Sheet, String> {
    match is_csv(name) {
        true => Ok(Sheet { holdings: csv_table(name, csv::parse_holdings)?, ..Sheet::default() }),
        false => text_sheet(name, read_text(name)?),
    }
}

/// The sheet in a file or in a text, or the holdings in a CSV.
pub fn sheet_or_holdings(name: &OsStr) -> Result<Sheet, String> {
    match is_csv(name) {
        true => holdings_in(name),
        false => sheet_and_kind(name).map(|(sheet, _)| sheet),
    }
}

/// The fills in a text or in a CSV.
pub fn fills_in(name: &OsStr) -> Result<Vec<Fill>, String> {
    match is_csv(name) {
        true => csv_table(name, csv::parse_fills),
        false => text::parse_fills(&read_text(name)?).map_err(|errors| told(name, &errors)),
    }
}

pub fn read_text(name: &OsStr) -> Result<String, String> {
    text_in(name, read_bytes(name)?)
}

fn read_bytes(name: &OsStr) -> Result<Vec<u8>, String> {
    let mut bytes = Vec::new();
    read_into(&mut bytes, name, LONGEST_TEXT)?;
    if bytes.len() > LONGEST_TEXT {
        return Err(format!("{}: a text longer than {LONGEST_TEXT} bytes is no sheet", shown(name)));
    }
    Ok(bytes)
}

fn text_in(name: &OsStr, bytes: Vec<u8>) -> Result<String, String> {
    if Form::of_block(&bytes).is_some() {
        return Err(format!(
            "{}: is a sheet file, and a text is expected; `sheet show FILE` prints its text",
            shown(name)
        ));
    }
    if let Some(kind) = sentences::other_kind(&bytes) {
        return Err(format!("{}: expected text in UTF-8, and this looks like {kind}", shown(name)));
    }
    String::from_utf8(bytes).map_err(|error| {
        let good = &error.as_bytes()[..error.utf8_error().valid_up_to()];
        let line = 1 + good.iter().filter(|&&byte| byte == b'\n').count();
        format!("{}: line {line}: expected text in UTF-8", shown(name))
    })
}

/// The errors of a text, each behind its name.
pub fn told(name: &OsStr, errors: &Errors<impl Display>) -> String {
    errors.to_string().lines().map(|error| format!("{}: {error}\n", shown(name))).collect()
}
