//! The verdicts on sheet files: a line each for programs, sentences and a summary for people.

use std::ffi::{OsStr, OsString};
use std::process::ExitCode;

use usm::numbers::{amount, count, grouped};
use usm::LONGEST_FILE;

use crate::files::{are_named, asked, Asked};
use crate::found::{Found, Judged};
use crate::input::read_into;
use crate::json::Object;
use crate::output::Output;
use crate::program::shown;

/// How the verdicts are told.
pub struct Telling {
    /// As objects in place of lines and sentences.
    pub json: bool,
    /// With the work that each was.
    pub work: bool,
    /// Nothing of files that are accepted.
    pub quiet: bool,
}

impl Telling {
    fn shows(&self, found: &Found) -> bool {
        !self.quiet || !matches!(found, Found::Accepted(_))
    }
}

/// How many files were accepted, refused and not read.
#[derive(Default)]
pub struct Tally {
    accepted: usize,
    refused: usize,
    unread: usize,
    work: u64,
    /// Of all that are accepted; many great ones pass what one sheet may have.
    total: i128,
}

/// Checks every file, also behind one that could not be read.
pub fn check(names: &[OsString], lists: &[OsString], telling: &Telling) -> Result<ExitCode, String> {
    let (several, asked) = (are_named(names, lists), asked(names, lists)?);
    let mut output = Output::new();
    let mut tally = Tally::default();
    let mut file = Vec::with_capacity(LONGEST_FILE + 1);
    for asked in &asked {
        let (name, found) = judge(&mut file, asked);
        tally.count(&found);
        if telling.shows(&found) {
            report(&mut output, name, several, &Judged::of(found, &file), telling)?;
        }
    }
    if several {
        let total = format!("; total margin of all accepted {}", amount(tally.total));
        let worked_out = if telling.work { format!("; {}", worked_out(tally.work)) } else { String::new() };
        output.tell(&format!("{}{total}{worked_out}", tally.summary()))?;
    }
    output.end()?;
    Ok(ExitCode::from(tally.status()))
}

/// The verdict on what is asked for; the bytes of a file are in the buffer then.
pub fn judge<'a>(file: &mut Vec<u8>, asked: &'a Asked) -> (&'a OsStr, Found) {
    match asked {
        Asked::Nothing(name, message) => (name, Found::Unread(message.clone())),
        Asked::File(name) => match read_into(file, name, LONGEST_FILE) {
            Err(message) => (name, Found::Unread(message)),
            Ok(()) => (name, Found::of(file)),
        },
    }
}

/// The line and the sentence of one file, or its object; and why one was not read.
fn report(
    output: &mut Output,
    name: &OsStr,
    several: bool,
    judged: &Judged,
    telling: &Telling,
) -> Result<(), String> {
    let found = &judged.found;
    match found {
        _ if telling.json => {
            let object = Object::of(name).origin(judged.origin).verdict(judged);
            output.print(object.line().as_bytes())?;
        }
        Found::Unread(_) => {}
        _ => {
            let before = if several { format!("{}: ", shown(name)) } else { String::new() };
            output.print(format!("{before}{}", found.line()).as_bytes())?;
            output.tell(&format!("{}: {}", shown(name), judged.sentence()))?;
        }
    }
    match (found, found.work()) {
        (Found::Unread(message), _) => output.tell(&format!("sheet: {message}")),
        (_, Some(values)) if telling.work && !telling.json => {
            output.tell(&format!("{}: {}", shown(name), worked_out(values)))
        }
        _ => Ok(()),
    }
}

fn worked_out(values: u64) -> String {
    format!("{} worked out", count(values, "intrinsic value"))
}

impl Tally {
    pub fn count(&mut self, found: &Found) {
        self.work += found.work().unwrap_or(0);
        match found {
            Found::Accepted(accepted) => {
                self.accepted += 1;
                self.total += i128::from(accepted.total);
            }
            Found::Refused(..) => self.refused += 1,
            Found::Unread(_) => self.unread += 1,
        }
    }

    /// Files that could not be read are named where there are some.
    pub fn summary(&self) -> String {
        let unread = match self.unread {
            0 => String::new(),
            unread => format!(", {} not read", grouped(unread)),
        };
        format!("{} accepted, {} refused{unread}", grouped(self.accepted), grouped(self.refused))
    }

    pub fn status(&self) -> u8 {
        match (self.unread, self.refused) {
            (0, 0) => 0,
            (0, _) => 1,
            _ => 2,
        }
    }
}
