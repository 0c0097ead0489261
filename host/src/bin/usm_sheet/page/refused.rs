//! A refused sheet: the refusal in its sentence, what would have to change, and the tables in which it is marked.

use usm::numbers::{amount, grouped};
use usm::{sentences, Leg, Refusal, Sheet, Table};

use super::blocks::{blocks, table_name};
use super::change::change;
use super::group::{margin_and_nets, placed_in};
use super::html::{all, element, sentence, text, words, Html};
use super::legs::legs;
use super::marks::Marks;
use super::table::{number, table, Row};
use crate::groups::groups;

pub fn refused(name: &str, file: &[u8], refusal: &Refusal, says: &str) -> Html {
    let sheet = Sheet::from_file(file).ok();
    let marks = Marks::of(name, file, refusal, sheet.as_ref());
    let link = marks.link().map(|link| element("a", &[("href", &link)], [text("Go to the place.")]));
    let told =
        element("p", &[("class", "refusal")], [text("Refused: "), sentence(says), text(". "), all(link)]);
    let tables = match &sheet {
        Some(sheet) => tables(name, sheet, &marks),
        None => unread_tables(file, refusal, &marks),
    };
    all([told, change(file, sheet.as_ref(), refusal), tables])
}

/// What can be shown of a file whose tables the reader refuses: its blocks, or the table of a bad record.
fn unread_tables(file: &[u8], refusal: &Refusal, marks: &Marks) -> Html {
    let with_record = Table::ALL.into_iter().find(|table| table.number() == refusal.table);
    match (marks.block, with_record) {
        (Some(_), _) => blocks(file, marks),
        (None, Some(which)) => raw_table(file, which, marks),
        (None, None) => all([]),
    }
}

/// A table whose fields need not be in range.
fn raw_table(file: &[u8], which: Table, marks: &Marks) -> Html {
    let records = sentences::record_texts(file, which);
    let rows = records.into_iter().enumerate().map(|(place, says)| {
        Row::of(vec![number(grouped(place + 1)), text(says)]).marked(marks.at_record(which, place))
    });
    table(table_name(which), &["No.", "What it says"], rows.collect())
}

fn tables(name: &str, sheet: &Sheet, marks: &Marks) -> Html {
    let held: Vec<(usize, &Leg)> = sheet.holdings.iter().enumerate().collect();
    let unplaced = placed_in(sheet, 0);
    let in_groups = groups(sheet).into_iter().map(|g| group(name, sheet, g, marks));
    let placement = |caption: &str, placed: &[(usize, &Leg)]| {
        legs(caption, placed, |place| marks.at_record(Table::Placement, place))
    };
    all([
        words("h3", &[], "The tables of the sheet"),
        legs("Holdings", &held, |place| marks.at_record(Table::Holdings, place)),
        all(in_groups),
        if unplaced.is_empty() { all([]) } else { placement("Placement: in no group", &unplaced) },
        claims(sheet, marks),
    ])
}

/// A group of a refused sheet; where the refusal is that its claim is not its margin, also how that comes about.
fn group(name: &str, sheet: &Sheet, g: u64, marks: &Marks) -> Html {
    let caption = format!("Placement: group {g}");
    let placed = placed_in(sheet, g);
    let shown = match placed.as_slice() {
        [] => words("p", &[], format!("Group {g} has no leg in the placement.")),
        placed => legs(&caption, placed, |place| marks.at_record(Table::Placement, place)),
    };
    match marks.at_group(g) {
        None => shown,
        Some(mark) => element(
            "section",
            &[("class", "marked group"), ("id", &mark.id.unwrap_or_default())],
            [
                words("p", &[("class", "said")], mark.says),
                shown,
                margin_and_nets(&format!("{name}-group-{g}"), sheet, g),
            ],
        ),
    }
}

fn claims(sheet: &Sheet, marks: &Marks) -> Html {
    let rows = sheet.claims.iter().enumerate().map(|(place, claim)| {
        let cells =
            vec![number(grouped(place + 1)), number(claim.group.to_string()), text(amount(claim.margin))];
        Row::of(cells).marked(marks.at_record(Table::Claims, place))
    });
    match sheet.claims.is_empty() {
        true => words("p", &[], "There is no claim."),
        false => table("Claims", &["No.", "Group", "Claimed"], rows.collect()),
    }
}
