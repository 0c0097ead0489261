//! One sheet of the page.

use std::ffi::OsStr;

use usm::numbers::{amount, grouped};
use usm::{Accepted, Sheet};

use super::group::{group, placed_in};
use super::html::{all, element, text, words, Html};
use super::legs::legs;
use super::refused::refused;
use crate::found::Found;
use crate::program::shown;

/// A file that was read or could not be, and its part of the page.
pub struct Told {
    /// The name of its part.
    pub id: String,
    pub file: String,
    /// As the file says it; 0 if it does not.
    pub account: u64,
    pub found: Found,
    pub section: Html,
}

impl Told {
    pub fn of(number: usize, name: &OsStr, file: &[u8], found: Found) -> Told {
        let id = format!("sheet-{number}");
        let sheet = match found {
            Found::Unread(_) => None,
            _ => Sheet::from_file(file).ok(),
        };
        let account = sheet.as_ref().map_or(0, |sheet| sheet.account);
        let inside = match (&found, &sheet) {
            (Found::Accepted(accepted), Some(sheet)) => {
                all([facts(accepted, account), accepted_sheet(&id, sheet)])
            }
            (Found::Refused(refusal, says), _) => {
                all([line(&found, account), refused(&id, file, refusal, says)])
            }
            (Found::Unread(message), _) => words("p", &[("class", "refusal")], message),
            (Found::Accepted(_), None) => all([]),
        };
        let file = shown(name);
        let section = element("section", &[("class", "sheet"), ("id", &id)], [head(&file, &found), inside]);
        Told { id, file, account, found, section }
    }
}

/// The word for what became of a file.
pub fn verdict(found: &Found) -> &'static str {
    match found {
        Found::Accepted(_) => "accepted",
        Found::Refused(..) => "refused",
        Found::Unread(_) => "not read",
    }
}

pub fn verdict_class(found: &Found) -> &'static str {
    match found {
        Found::Accepted(_) => "verdict accepted",
        _ => "verdict refused",
    }
}

fn head(file: &str, found: &Found) -> Html {
    let verdict = words("span", &[("class", verdict_class(found))], verdict(found));
    element("h2", &[], [element("span", &[("class", "file")], [text(file)]), text(" "), verdict])
}

/// The line for programs, and the account where the file says it.
fn line(found: &Found, account: u64) -> Html {
    let account = match account {
        0 => String::new(),
        account => format!(", account {account}"),
    };
    let line = words("code", &[], found.line().trim_end());
    element("p", &[("class", "line")], [line, text(account)])
}

fn facts(accepted: &Accepted, account: u64) -> Html {
    let account = match account {
        0 => String::from("none in this file (old form)"),
        account => account.to_string(),
    };
    let facts = [
        ("Account", account),
        ("Groups", grouped(accepted.groups)),
        ("Total margin", amount(accepted.total)),
    ];
    let pairs =
        facts.map(|(name, says)| element("div", &[], [words("dt", &[], name), words("dd", &[], says)]));
    element("dl", &[], pairs)
}

fn accepted_sheet(id: &str, sheet: &Sheet) -> Html {
    let groups = sheet.claims.iter().map(|claim| group(id, sheet, claim.group.into()));
    let unplaced = placed_in(sheet, 0);
    let longs = match unplaced.as_slice() {
        [] => all([]),
        unplaced => element(
            "section",
            &[("class", "group")],
            [
                words("h3", &[], "Longs in no group"),
                words(
                    "p",
                    &[],
                    "They are marked as paid and need no margin: a long is never worth less than nothing.",
                ),
                legs("Unplaced longs", unplaced, |_| None),
            ],
        ),
    };
    all(groups.chain([longs]).collect::<Vec<Html>>())
}
