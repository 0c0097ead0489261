//! What would have to change in a refused sheet, where that can be said.

use usm::numbers::{amount, grouped};
use usm::sentences::{unequal, Unequal};
use usm::{salvage_file, Form, Reason, Refusal, Sheet, Side, Table};

use super::html::{all, element, sentence, text, words, Html};
use super::table::{table, Row};

/// Behind the first fault nothing is looked at.
const FIRST: &str = "This is the first fault in the order of the rules. When it is mended another may show.";

pub fn change(file: &[u8], sheet: Option<&Sheet>, refusal: &Refusal) -> Html {
    let of_sheet = sheet.and_then(|sheet| of_rules(sheet, refusal));
    let both = sheet.and_then(|sheet| unequal(sheet, refusal)).map(sides);
    match of_sheet.or_else(|| of_file(file, refusal)) {
        Some(says) => all([
            words("h3", &[], "What would have to change"),
            all(both),
            paragraph(&says),
            paragraph(FIRST),
        ]),
        None => all([]),
    }
}

fn paragraph(says: &str) -> Html {
    element("p", &[], [sentence(says)])
}

/// The two amounts that have to be equal.
fn sides(found: Unequal) -> Html {
    let (caption, rows) = match found {
        Unequal::Units { long, short } => {
            ("Units on each side", [("Long", grouped(long)), ("Short", grouped(short))])
        }
        Unequal::Contracts { held, placed } => {
            ("Contracts of this line and side", [("Held", grouped(held)), ("Placed", grouped(placed))])
        }
        Unequal::Margin { claimed, due } => {
            ("Claimed and due", [("Claimed", amount(claimed)), ("Due", amount(due))])
        }
    };
    let row = |(name, says): &(&str, String)| Row::of(vec![text(name), text(says)]);
    table(caption, &["Which", "How much"], rows.iter().map(row).collect())
}

/// What the rules of a sheet ask.
fn of_rules(sheet: &Sheet, refusal: &Refusal) -> Option<String> {
    let says = match refusal.reason()? {
        Reason::GroupsMisnumbered if refusal.table == Table::Claims.number() => {
            "The claims would have to be numbered 1, 2 and so on, none left out."
        }
        Reason::GroupsMisnumbered => {
            "The leg would have to stand in a group that has a claim, or its group would need one."
        }
        Reason::NoLeg => "The group would need legs in the placement, or its claim would have to go.",
        Reason::UnderlyingsDiffer => {
            "The legs of a group have to be of one underlying: one of the two marked \
                                      legs would have to stand in another group."
        }
        Reason::StylesDiffer => {
            "The legs of a group have to be all American or all European: one of the two \
                                 marked legs would have to stand in another group."
        }
        Reason::MarketsDiffer => {
            "The legs of a group have to be all listed or all over the counter: one of the \
                                  two marked legs would have to stand in another group."
        }
        Reason::SeriesLongAndShort => {
            "A group may not be long and short one series: one of the two marked legs \
                                       would have to stand in another group."
        }
        Reason::ShortOutlivesLong => {
            "No short may expire after a long of its group: one of the two marked legs \
                                      would have to stand in another group."
        }
        Reason::CallUnitsUnequal | Reason::PutUnitsUnequal => {
            "The two numbers of units would have to be equal."
        }
        Reason::ContractsDiffer => "The two numbers of contracts would have to be equal.",
        Reason::NotPlaced => return unplaced(sheet, refusal),
        Reason::ClaimNotMargin => "The claim would have to be what is due.",
        _ => return None,
    };
    Some(String::from(says))
}

fn unplaced(sheet: &Sheet, refusal: &Refusal) -> Option<String> {
    let leg = sheet.placement.get(usize::try_from(refusal.place).ok()?)?;
    Some(String::from(match leg.side {
        Side::Short => "The short would have to stand in a group that is a spread with it.",
        Side::Long => {
            "The long would have to stand in a group; or, if it is paid for in full, be marked as paid. \
             `sheet mark-paid FILE OUT` marks every unplaced long of the sheet."
        }
    }))
}

/// What can be done about a file that is not read; of one that was no sheet file its sentence says it.
fn of_file(file: &[u8], refusal: &Refusal) -> Option<String> {
    let again = "The file has to be made or sent again.";
    match refusal.reason()? {
        Reason::FieldOutOfRange => {
            Some(String::from("The fields that the sentence names would have to be in range."))
        }
        // Only where it does: not where each block is bad.
        _ if salvage_file(file).is_ok() => Some(format!(
            "{again} Meanwhile `sheet salvage FILE OUT` makes a sound file of what is whole in it, and tells what \
             is left out."
        )),
        _ => Form::of_block(file).map(|_| String::from(again)),
    }
}
