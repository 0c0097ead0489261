//! What commands share about their inputs: none is written over, and standard input is read once.

use std::ffi::OsStr;
use std::fs;

use usm::Sheet;

use crate::program::{self, shown};

/// An input is no place for what is made of it.
pub fn not_over_itself(name: &OsStr, out_name: &OsStr) -> Result<(), String> {
    match same_file(name, out_name) {
        true => Err(format!("{}: cannot be written over itself; name another file for OUT", shown(name))),
        false => Ok(()),
    }
}

/// Whether the two are names of one file that is there.
pub fn same_file(name: &OsStr, out_name: &OsStr) -> bool {
    match (fs::canonicalize(name), fs::canonicalize(out_name)) {
        (Ok(file), Ok(out)) => name != "-" && out_name != "-" && file == out && file.is_file(),
        _ => false,
    }
}

/// Standard input is read once, and neither input is written over.
pub fn two_inputs(inputs: [(&str, &OsStr); 2], out_name: &OsStr) -> Result<(), String> {
    let [(first, first_name), (second, second_name)] = inputs;
    if first_name == "-" && second_name == "-" {
        return Err(format!("{first} and {second} cannot both be standard input"));
    }
    not_over_itself(first_name, out_name)?;
    not_over_itself(second_name, out_name)
}

/// What is printed as JSON has standard output for itself.
pub fn not_beside_json(json: bool, out_name: &OsStr) -> Result<(), String> {
    match json && out_name == "-" {
        true => Err(String::from("with --json standard output has the object; name a file for OUT")),
        false => Ok(()),
    }
}

/// Says that only the holdings of a sheet are taken, where it has more.
pub fn tell_left_out(name: &OsStr, sheet: &Sheet) {
    if !sheet.placement.is_empty() || !sheet.claims.is_empty() {
        program::tell(&format!("{}: its placement and its claims are left out", shown(name)));
    }
}

/// Says that an account is lost to what cannot say it.
pub fn tell_account_left_out(name: &OsStr, account: u64) {
    if account != 0 {
        program::tell(&format!(
            "{}: its account, {account}, is left out: a CSV does not say it",
            shown(name)
        ));
    }
}
