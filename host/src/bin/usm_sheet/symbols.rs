//! Lists of option symbols: what members send becomes holdings, and back.

use std::ffi::OsStr;
use std::fmt::{self, Display, Formatter};
use std::process::ExitCode;

use usm::numbers::{count, grouped};
use usm::text::{self, Errors};
use usm::{
    holdings_of_list, list_of_holdings, sentences, Leg, Refusal, Root, LIST_TABLE, LONGEST_LIST, MOST_LINES,
    ROOTS_TABLE,
};

use crate::input::{read_into, read_text, sheet_or_holdings, told};
use crate::inputs::{not_beside_json, tell_left_out, two_inputs};
use crate::json::{self, Object};
use crate::make::{made_holdings, write};
use crate::output::print;
use crate::program::{self, shown};

/// What is longer is no list; every line of it would be judged by itself.
const LONGEST_INPUT: usize = 8 * LONGEST_LIST;

/// The names of what is read and written.
pub struct Names<'a> {
    pub roots: &'a OsStr,
    pub list: &'a OsStr,
    pub out: &'a OsStr,
}

/// Writes the holdings that a list says: as text, or as a sheet file or a CSV where the name asks for one.
pub fn import(names: &Names, force: bool, json: bool) -> Result<ExitCode, String> {
    two_inputs([("the roots", names.roots), ("the list", names.list)], names.out)?;
    not_beside_json(json, names.out)?;
    let (roots, list) = (roots(names.roots)?, list(names.list)?);
    let (refused_name, errors) = match holdings_of_list(&roots, &list) {
        Ok(holdings) => return imported(names, holdings, force, json),
        Err(refusal) if refusal.table == ROOTS_TABLE => {
            (names.roots, only(&refusal, sentences::of_import(&roots, &list, &refusal)))
        }
        Err(refusal) => (names.list, list_errors(&roots, &list, &refusal)),
    };
    match json {
        true => print(&object(names, None, &errors).line()).map(|_| ExitCode::from(1)),
        false => refused(refused_name, &errors),
    }
}

fn imported(names: &Names, holdings: Vec<Leg>, force: bool, json: bool) -> Result<ExitCode, String> {
    let lines = holdings.len();
    write(names.out, &made_holdings(0, holdings, names.list, names.out)?, force)?;
    match json {
        true => print(&object(names, Some(lines), &Errors::default()).line()),
        false => {
            program::tell(&format!("{}: {} imported", shown(names.list), count(lines as u64, "line")));
            Ok(ExitCode::SUCCESS)
        }
    }
}

/// What came out of a list, or all that is wrong with it or with the roots.
fn object(names: &Names, records: Option<usize>, errors: &Errors<Said>) -> Object {
    let listed = errors.listed().iter().map(|said| json::refused(&said.refusal, &said.sentence));
    let object = Object::of(names.list).named("roots", names.roots);
    let object = match records {
        Some(_) => object.named("out", names.out),
        None => object.with("out", None::<&str>),
    };
    object
        .with("records", records)
        .with("refused", listed.collect::<Vec<Object>>())
        .with("more", errors.unlisted())
}

/// Writes the holdings of a sheet file, or of a sheet's text, as a list.
pub fn export(roots_name: &OsStr, name: &OsStr, out_name: &OsStr, force: bool) -> Result<ExitCode, String> {
    two_inputs([("the roots", roots_name), ("the sheet", name)], out_name)?;
    let (roots, sheet) = (roots(roots_name)?, sheet_or_holdings(name)?);
    let list = match list_of_holdings(&roots, &sheet.holdings) {
        Ok(list) => list,
        Err(refusal) if refusal.table == ROOTS_TABLE => {
            return refused(roots_name, &only(&refusal, sentences::of_export(&roots, &[], &refusal)));
        }
        Err(_) => return refused(name, &record_errors(&roots, &sheet.holdings)),
    };
    write(out_name, &list, force)?;
    tell_left_out(name, &sheet);
    let records = count(sheet.holdings.len() as u64, "record");
    program::tell(&format!("{}: {records} exported", shown(name)));
    Ok(ExitCode::SUCCESS)
}

fn roots(name: &OsStr) -> Result<Vec<Root>, String> {
    text::parse_roots(&read_text(name)?).map_err(|errors| told(name, &errors))
}

fn list(name: &OsStr) -> Result<Vec<u8>, String> {
    let mut list = Vec::new();
    read_into(&mut list, name, LONGEST_INPUT)?;
    if list.len() > LONGEST_INPUT {
        let (most, longest) = (grouped(LONGEST_INPUT), grouped(LONGEST_LIST));
        return Err(format!(
            "{}: has more than {most} bytes; a list of {MOST_LINES} lines has at most {longest}",
            shown(name)
        ));
    }
    Ok(list)
}

/// Says what is refused; nothing is written.
fn refused(name: &OsStr, errors: &Errors<Said>) -> Result<ExitCode, String> {
    told(name, errors).lines().for_each(program::tell);
    Ok(ExitCode::from(1))
}

/// A refusal and its sentence.
struct Said {
    refusal: Refusal,
    sentence: String,
}

impl Display for Said {
    fn fmt(&self, f: &mut Formatter) -> fmt::Result {
        write!(f, "refusal {}: {}", self.refusal.number, self.sentence)
    }
}

fn only(refusal: &Refusal, sentence: String) -> Errors<Said> {
    let mut errors = Errors::default();
    errors.add(Said { refusal: *refusal, sentence });
    errors
}

/// All that is wrong with a list that is refused: the library judges each line by itself, and what holds of
/// every line is said once.
fn list_errors(roots: &[Root], list: &[u8], refusal: &Refusal) -> Errors<Said> {
    let lines = || list.split_inclusive(|byte| *byte == b'\n');
    if refusal.table != LIST_TABLE {
        return only(refusal, sentences::of_import(roots, list, refusal));
    }
    let from_windows = |line: &[u8]| line.ends_with(b"\r\n");
    if lines().any(from_windows) && !lines().any(|line| line.ends_with(b"\n") && !from_windows(line)) {
        let sentence = "every line ends in a carriage return and a newline, as in lists from Windows; \
                        a line of a list ends in a newline alone";
        return only(refusal, String::from(sentence));
    }
    let mut errors = Errors::default();
    for (place, line) in (0..).zip(lines()) {
        if let Err(refusal) = holdings_of_list(roots, line) {
            let refusal = Refusal { place, ..refusal };
            errors.add(Said { refusal, sentence: sentences::of_line(line, &refusal) });
        }
    }
    errors
}

/// All records that no line can say, each judged by itself.
fn record_errors(roots: &[Root], holdings: &[Leg]) -> Errors<Said> {
    let mut errors = Errors::default();
    for (place, leg) in (0..).zip(holdings) {
        if let Err(refusal) = list_of_holdings(roots, &[*leg]) {
            let refusal = Refusal { place, ..refusal };
            errors.add(Said { refusal, sentence: sentences::of_export(roots, holdings, &refusal) });
        }
    }
    errors
}
