//! Legs as people read them.

use usm::numbers::{dollars, grouped};
use usm::text::date_text;
use usm::{Leg, Market, OptionType, Settlement, Side, Style};

use super::html::{text, Html};
use super::table::{long, number, table, Mark, Row};

const HEADS: [&str; 5] = ["No.", "Position", "Option", "Expiry", "Terms"];

/// A table of legs with their places in the sheet, of which `mark` tells those that a refusal is about.
pub fn legs(caption: &str, legs: &[(usize, &Leg)], mark: impl Fn(usize) -> Option<Mark>) -> Html {
    let rows = legs.iter().map(|(place, leg)| Row::of(cells(*place, leg)).marked(mark(*place)));
    table(caption, &HEADS, rows.collect())
}

fn cells(place: usize, leg: &Leg) -> Vec<Html> {
    let side = match leg.side {
        Side::Long => "long",
        Side::Short => "short",
    };
    let option = match leg.option_type {
        OptionType::Call => "call",
        OptionType::Put => "put",
    };
    vec![
        number(grouped(place + 1)),
        text(format!("{side} {}", grouped(leg.contracts))),
        text(format!("{option} {}", dollars(leg.strike))),
        number(date_text(leg.expiry)),
        long(terms(leg)),
    ]
}

/// What is the same for all legs of a spread, and what may differ.
fn terms(leg: &Leg) -> String {
    let style = match leg.style {
        Style::American => "American",
        Style::European => "European",
    };
    let market = match leg.market {
        Market::Listed => "listed",
        Market::Otc => "over the counter",
    };
    let settlement = match leg.settlement {
        Settlement::NotStated => "",
        Settlement::Cash => ", settled in cash",
        Settlement::Physical => ", settled physically",
    };
    let paid = if leg.paid { ", paid" } else { "" };
    let (unit, underlying) = (grouped(leg.unit_size), leg.underlying);
    format!("unit {unit}, underlying {underlying}, {style}, {market}{settlement}{paid}")
}
