//! The frame of the page: what stands before and behind the sheets.

use super::contents::contents;
use super::html::{all, document, element, single, text, words, Html};
use super::sheets::{verdict, Told};
use crate::check::Tally;

const STYLE: &str = include_str!("style.css");

/// Nothing is fetched from anywhere, whatever stood in the page: only its own style is taken.
const POLICY: &str = "default-src 'none'; style-src 'unsafe-inline'";

pub fn page(sheets: Vec<Told>, tally: &Tally) -> String {
    let title = match sheets.as_slice() {
        [one] => format!("{}: {}", one.file, verdict(&one.found)),
        several => format!("{} placement sheets: {}", several.len(), tally.summary()),
    };
    let head = all([
        single("meta", &[("charset", "utf-8")]),
        single("meta", &[("name", "viewport"), ("content", "width=device-width, initial-scale=1")]),
        single("meta", &[("http-equiv", "Content-Security-Policy"), ("content", POLICY)]),
        words("title", &[], title),
    ]);
    let (heading, listed) = match sheets.len() {
        1 => ("Placement sheet", all([])),
        _ => ("Placement sheets", contents(&sheets, tally)),
    };
    let several = sheets.len() > 1;
    let sections = sheets.into_iter().map(|told| all([told.section, back(several)]));
    let main = element("main", &[], sections.collect::<Vec<Html>>());
    let top = element("header", &[("id", "top")], [words("h1", &[], heading), listed]);
    document(head, STYLE, all([top, main, foot()]))
}

/// The way back to the contents, where there are some.
fn back(several: bool) -> Html {
    match several {
        true => element(
            "p",
            &[("class", "back")],
            [element("a", &[("href", "#top")], [text("Back to the contents")])],
        ),
        false => all([]),
    }
}

fn foot() -> Html {
    let says = format!(
        "Made by sheet {}. Verdicts, margins and nets are what the proved library answers. A mill is 1/1000 dollar. \
         A leg\u{2019}s units are its contracts times its unit size.",
        usm::VERSION
    );
    element("footer", &[], [words("p", &[], &says)])
}
