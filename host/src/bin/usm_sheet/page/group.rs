//! One group: its margin, its legs, its drawing, and the net at each strike.

use usm::numbers::{amount, dollars};
use usm::{sentences, Leg, Sheet};

use super::drawing::{drawing, worst};
use super::html::{all, element, words, Html};
use super::legs::legs;
use super::table::{number, table, Row};

/// A group of an accepted sheet.
pub fn group(name: &str, sheet: &Sheet, g: u64) -> Html {
    let id = format!("{name}-group-{g}");
    let inside = [
        words("h3", &[], format!("Group {g}")),
        legs(&format!("Legs of group {g}"), &placed_in(sheet, g), |_| None),
        margin_and_nets(&id, sheet, g),
    ];
    element("section", &[("class", "group"), ("id", &id)], inside)
}

/// The records of the placement that stand in this group, or in none for 0, with their places.
pub fn placed_in(sheet: &Sheet, g: u64) -> Vec<(usize, &Leg)> {
    sheet.placement.iter().enumerate().filter(|(_, leg)| u64::from(leg.group) == g).collect()
}

/// What the library answers for a group that is a spread; of one that is none, nothing.
pub fn margin_and_nets(id: &str, sheet: &Sheet, g: u64) -> Html {
    match (sheet.margin(g), sheet.worksheet(g)) {
        (Ok(margin), Ok(rows)) => element(
            "div",
            &[("class", "nets")],
            [
                element("div", &[("class", "beside")], [margin_says(margin, &rows), nets(g, &rows)]),
                figure(id, g, margin, &rows),
            ],
        ),
        _ => all([]),
    }
}

/// The margin, and of a European long box why it is asked.
fn margin_says(margin: i64, rows: &[(u32, i64)]) -> Html {
    let says = words("p", &[("class", "margin")], format!("Margin {}", amount(margin)));
    let why = sentences::half_of(margin, rows).map(|difference| {
        let why = format!(
            "This is a European long box, so it is asked half of {}, the difference in strikes times its units. \
             It cannot lose at any price. It is asked the half all the same, because Release 34-67752 asks \
             50% of the aggregate difference in exercise prices of a long box whose options are all European.",
            dollars(difference)
        );
        words("p", &[], why)
    });
    all([says].into_iter().chain(why))
}

fn nets(g: u64, rows: &[(u32, i64)]) -> Html {
    let row = |(strike, net): &(u32, i64)| Row::of(vec![number(dollars(*strike)), number(dollars(*net))]);
    table(&format!("Net of group {g}"), &["Strike", "Net"], rows.iter().map(row).collect())
}

fn figure(id: &str, g: u64, margin: i64, rows: &[(u32, i64)]) -> Html {
    let told = told(margin, rows);
    let title = format!("Net of group {g} over the price of the underlying");
    let level = "Between strikes the line is straight. Below the lowest strike and above the highest it is level: \
                 the group is long and short the same number of units in calls, and in puts, so that out there \
                 what one side gains the other loses.";
    element(
        "figure",
        &[],
        [
            drawing(id, &title, &told, rows, margin),
            words("figcaption", &[], format!("{title}. {told} {level}")),
        ],
    )
}

/// The drawing in words.
fn told(margin: i64, rows: &[(u32, i64)]) -> String {
    let (strike, net) = worst(rows);
    let (at, margin) = (dollars(strike), dollars(margin));
    let worst = match net {
        0.. => format!("At no price does it lose; its lowest net is {}, at {at}.", dollars(net)),
        _ => format!("At worst it loses {}, at {at}.", dollars(-i128::from(net))),
    };
    format!("{worst} The dashed line is the margin, {margin} below zero.")
}
