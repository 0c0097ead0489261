//! What stands on a page of several sheets, and their totals.

use usm::numbers::{amount, count};
use usm::Accepted;

use super::html::{all, element, text, words, Html};
use super::sheets::{verdict, verdict_class, Told};
use super::table::{number, table_with, Row};
use crate::check::Tally;
use crate::found::Found;

const HEADS: [&str; 3] = ["File", "Verdict", "Total margin"];

/// The table of contents; its last row adds up the accepted sheets.
pub fn contents(sheets: &[Told], tally: &Tally) -> Html {
    let accepted = || sheets.iter().filter_map(accepted);
    let groups: u64 = accepted().map(|accepted| accepted.groups).sum();
    // More than one sheet's amounts may pass what 64 bits hold.
    let total: i128 = accepted().map(|accepted| i128::from(accepted.total)).sum();
    let sums = vec![text("All that are accepted"), text(count(groups, "group")), text(amount(total))];
    let rows = sheets.iter().map(|told| Row::of(cells(told))).collect();
    element(
        "nav",
        &[("aria-label", "Contents")],
        [
            words("p", &[], format!("{}: {}.", count(sheets.len() as u64, "file"), tally.summary())),
            table_with("Contents", &HEADS, rows, Some(Row::of(sums))),
        ],
    )
}

fn accepted(told: &Told) -> Option<&Accepted> {
    match &told.found {
        Found::Accepted(accepted) => Some(accepted),
        _ => None,
    }
}

fn cells(told: &Told) -> Vec<Html> {
    let link = element("a", &[("href", &format!("#{}", told.id)), ("class", "file")], [text(&told.file)]);
    let account = match told.account {
        0 => all([]),
        account => words("span", &[("class", "account long")], format!(" account {account}")),
    };
    let verdict = words("span", &[("class", verdict_class(&told.found))], verdict(&told.found));
    let (groups, total) = match accepted(told) {
        Some(accepted) => {
            (all([text(", "), number(count(accepted.groups, "group"))]), amount(accepted.total))
        }
        None => (all([]), String::from("\u{2013}")),
    };
    vec![all([link, account]), all([verdict, groups]), text(total)]
}
