//! Files moved from one form to the other.

use std::ffi::OsStr;
use std::process::ExitCode;

use usm::{move_to_new, move_to_old, sentences, Form, Origin, LONGEST_FILE};

use crate::arguments::number_of;
use crate::input::read_into;
use crate::inputs::not_over_itself;
use crate::make::write;
use crate::program::shown;

/// To the new form, with an account.
pub fn to_new(name: &OsStr, account: &OsStr, out_name: &OsStr, force: bool) -> Result<ExitCode, String> {
    moved(name, Origin::new(number_of("an account", account)?), out_name, force)
}

/// To the old form, which does not say the account.
pub fn to_old(name: &OsStr, out_name: &OsStr, force: bool) -> Result<ExitCode, String> {
    moved(name, Origin::OLD, out_name, force)
}

fn moved(name: &OsStr, to: Origin, out_name: &OsStr, force: bool) -> Result<ExitCode, String> {
    let named = |what: String| format!("{}: {what}", shown(name));
    not_over_itself(name, out_name)?;
    let (mut file, mut out) = (Vec::new(), vec![0; LONGEST_FILE]);
    read_into(&mut file, name, LONGEST_FILE)?;
    let length = match to.form {
        Form::New => move_to_new(&file, to.account, &mut out),
        Form::Old => move_to_old(&file, &mut out),
    };
    let length = length.map_err(|refusal| {
        named(format!("refusal {}: {}", refusal.number, sentences::of_move(&file, to, &refusal)))
    })?;
    write(out_name, &out[..length], force)?;
    Ok(ExitCode::SUCCESS)
}
