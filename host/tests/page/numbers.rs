//! Every number on the page of an accepted sheet, held against the library and the file.

use std::collections::BTreeSet;

use usm::numbers::{amount, dollars, grouped};
use usm::{check_file, leg_table, margin, worksheet, Accepted, Leg, Sheet, Side, Style};
use usm_kit::accounts::{fullest, in_group, leg, paid, placed, times};

use crate::reader::{body, pieces, read_aloud, table, tables, texts, Piece};
use crate::{page_of, sample, sample_names};

/// Sheets that are accepted, by name: the samples, a full one, one of the greatest amounts, one of many parts.
fn accepted() -> Vec<(String, Vec<u8>)> {
    let most = |notation, strike| Leg { unit_size: 1_000, contracts: 100_000, strike, ..leg(notation) };
    let great = [most("S50c", 1), most("L50c", 99_999_999)];
    let european = |leg: Leg| Leg { style: Style::European, ..in_group(2, leg) };
    let parts = [
        paid(times(12_345, "L90c")),
        leg("L60c"),
        leg("S50c"),
        european(times(3, "L50c")),
        european(times(3, "S61c")),
        european(times(3, "L61p")),
        european(times(3, "S50p")),
        paid(leg("L10p")),
    ];
    let made = [
        ("full.usm", fullest()),
        ("great.usm", placed(&great, &[9_999_999_800_000_000])),
        ("parts.usm", Sheet { account: u64::MAX, ..placed(&parts, &[1_000_000, 1_650_000]) }),
    ];
    let made = made.map(|(name, sheet)| (String::from(name), sheet.to_file().expect("a file")));
    let samples = sample_names().into_iter().map(|name| (name.clone(), sample(&name)));
    samples.chain(made).filter(|(_, file)| check_file(file).is_ok()).collect()
}

/// What the library answers for one group, by its calls on bytes.
fn answers(sheet: &Sheet, group: u64) -> (i64, Vec<(u32, i64)>) {
    let placement = leg_table(&sheet.placement);
    let (mut strikes, mut nets) = ([0; 256], [0; 256]);
    let rows = worksheet(&placement, group, &mut strikes, &mut nets).expect("a spread");
    let rows = strikes.into_iter().zip(nets).take(rows).collect();
    (margin(&placement, group).expect("a spread"), rows)
}

fn side(leg: &Leg) -> &'static str {
    if leg.side == Side::Long {
        "long"
    } else {
        "short"
    }
}

/// The first four cells of a leg; the fifth has its terms in words.
fn cells(place: usize, leg: &Leg) -> Vec<String> {
    let option = if leg.option_type == usm::OptionType::Call { "call" } else { "put" };
    let date = leg.expiry.to_string();
    vec![
        grouped(place + 1),
        format!("{} {}", side(leg), grouped(leg.contracts)),
        format!("{option} {}", dollars(leg.strike)),
        format!("{}-{}-{}", &date[..4], &date[4..6], &date[6..]),
    ]
}

fn same_legs(sheet: &Sheet, group: u64, rows: &[&[String]]) {
    let legs = sheet.placement.iter().enumerate().filter(|(_, leg)| u64::from(leg.group) == group);
    let legs: Vec<(usize, &Leg)> = legs.collect();
    assert_eq!(rows.len(), legs.len());
    for ((place, leg), row) in legs.into_iter().zip(rows) {
        assert_eq!(row[..4], cells(place, leg));
        let terms = format!("unit {}, underlying {}, ", grouped(leg.unit_size), leg.underlying);
        assert!(row[4].starts_with(&terms), "{}", row[4]);
        assert_eq!(row[4].contains("European"), leg.style == Style::European);
        assert_eq!(row[4].ends_with(", paid"), leg.paid);
    }
}

#[test]
fn tables_margins_and_totals_are_what_the_library_answers() {
    for (name, file) in accepted() {
        let (sheet, verdict) =
            (Sheet::from_file(&file).expect("a sheet"), check_file(&file).expect("accepted"));
        let pieces = pieces(body(&page_of("page-numbers", &[(&name, &file)])));
        let (tables, margins) = (tables(&pieces), margins_told(&pieces));
        assert_eq!(margins.len() as u64, verdict.groups, "{name}");
        for group in 1..=verdict.groups {
            let (margin, rows) = answers(&sheet, group);
            assert_eq!(margins[group as usize - 1], format!("Margin {}", amount(margin)), "{name}");
            same_legs(&sheet, group, &table(&tables, &format!("Legs of group {group}")).records());
            let expected: Vec<Vec<String>> =
                rows.iter().map(|(strike, net)| vec![dollars(*strike), dollars(*net)]).collect();
            assert_eq!(table(&tables, &format!("Net of group {group}")).records(), expected, "{name}");
        }
        if sheet.placement.iter().any(|leg| leg.group == 0) {
            same_legs(&sheet, 0, &table(&tables, "Unplaced longs").records());
        }
        let facts = texts(&pieces, "dd");
        assert_eq!(facts[1..], [grouped(verdict.groups), amount(verdict.total)], "{name}");
        match sheet.account {
            0 => assert_eq!(facts[0], "none in this file (old form)"),
            account => assert_eq!(facts[0], account.to_string()),
        }
    }
}

/// The margins of the groups, in order.
fn margins_told(pieces: &[Piece]) -> Vec<String> {
    texts(pieces, "p").into_iter().filter(|text| text.starts_with("Margin ")).collect()
}

/// Words that are numbers: digits, and what may stand between and before them.
fn numbers_in(text: &str) -> BTreeSet<String> {
    let part = |c: char| c.is_ascii_digit() || "$,.-".contains(c);
    let words = text.split(|c| !part(c)).filter(|word| word.contains(|c: char| c.is_ascii_digit()));
    words.map(|word| String::from(word.trim_end_matches(['.', ',', '-']))).collect()
}

/// All numbers that the page of a sheet may have.
fn known(sheet: &Sheet, verdict: &Accepted) -> BTreeSet<String> {
    let mut known: BTreeSet<String> =
        ["$0", "1", "1000", "34-67752", "50"].map(String::from).into_iter().collect();
    known.extend(numbers_in(usm::VERSION));
    known.extend([sheet.account.to_string(), grouped(verdict.groups)]);
    let mut amounts = vec![verdict.total];
    for group in 1..=verdict.groups {
        known.insert(group.to_string());
        let (margin, rows) = answers(sheet, group);
        amounts.push(margin);
        // A loss is a net negated, and is told without a sign.
        amounts.extend(rows.iter().flat_map(|(strike, net)| [i64::from(*strike), *net, -net]));
    }
    known.extend(amounts.into_iter().flat_map(|mills| [dollars(mills), mills.to_string()]));
    for (place, leg) in sheet.placement.iter().enumerate() {
        known.extend(numbers_in(&cells(place, leg).join(" ")));
        known.extend([grouped(leg.unit_size), leg.underlying.to_string()]);
    }
    known
}

#[test]
fn no_other_number_stands_on_a_page() {
    for (name, file) in accepted() {
        // A name of its own, without a digit.
        let page = page_of("page-no-other", &[("sheet.usm", &file)]);
        let (sheet, verdict) =
            (Sheet::from_file(&file).expect("a sheet"), check_file(&file).expect("accepted"));
        let found = numbers_in(&read_aloud(&pieces(body(&page))));
        let known = known(&sheet, &verdict);
        let unknown: Vec<&String> = found.difference(&known).collect();
        assert!(unknown.is_empty(), "{name}: {unknown:?}");
    }
}

#[test]
fn a_european_long_box_says_what_is_asked_and_why() {
    let page = page_of("page-box", &[("box.usm", &sample("european-box.usm"))]);
    let said = texts(&pieces(body(&page)), "p").join("\n");
    for words in ["half of $1,000.000", "It cannot lose at any price", "Release 34-67752 asks 50%"] {
        assert!(said.contains(words), "{words}: {said}");
    }
    let american = page_of("page-american-box", &[("box.usm", &sample("box.usm"))]);
    assert!(!american.contains("long box"), "an American box is asked like any other spread");
}
