//! The header: its calls are those that Rust declares, its numbers those that Rust has.

use std::collections::{BTreeMap, BTreeSet};

use usm::ffi::{Answer, LINE_BYTES, TABLE_BYTES};
use usm::{Action, Form, Market, OptionType, Reason, Settlement, Side, Style, Table};
use usm_kit::{block, fields};

const HEADER: &str = include_str!("../../include/usm.h");

/// The constants `USM_NAME = number` of the header.
fn constants() -> BTreeMap<&'static str, u64> {
    let lines = HEADER.lines().filter(|line| !line.starts_with(" *"));
    let settings =
        lines.flat_map(|line| line.split(&[',', '{', '}'][..])).filter_map(|part| part.split_once(" = "));
    settings
        .map(|(name, number)| {
            let number = number.split_whitespace().next().and_then(|number| number.parse().ok());
            (name.trim(), number.expect(name))
        })
        .collect()
}

pub fn constant(name: &str) -> u64 {
    constants()[name]
}

/// `ClaimNotMargin` as `USM_CLAIM_NOT_MARGIN`.
fn c_name(reason: Reason) -> String {
    let name = format!("{reason:?}");
    let words =
        name.chars().map(|c| if c.is_uppercase() { format!("_{c}") } else { c.to_uppercase().to_string() });
    format!("USM{}", words.collect::<String>())
}

#[test]
fn refusals_have_rusts_names_and_numbers() {
    let constants = constants();
    for reason in Reason::ALL {
        assert_eq!(constants.get(c_name(reason).as_str()), Some(&reason.number()), "{reason:?}");
    }
}

#[test]
fn fields_stand_where_rust_has_them() {
    for (name, (at, _)) in [
        ("USM_LEG_GROUP", fields::GROUP),
        ("USM_LEG_SIDE", fields::SIDE),
        ("USM_LEG_TYPE", fields::TYPE),
        ("USM_LEG_STYLE", fields::STYLE),
        ("USM_LEG_MARKET", fields::MARKET),
        ("USM_LEG_UNIT_SIZE", fields::UNIT_SIZE),
        ("USM_LEG_UNDERLYING", fields::UNDERLYING),
        ("USM_LEG_STRIKE", fields::STRIKE),
        ("USM_LEG_EXPIRY", fields::EXPIRY),
        ("USM_LEG_CONTRACTS", fields::CONTRACTS),
        ("USM_LEG_SETTLEMENT", fields::SETTLEMENT),
        ("USM_LEG_PAID", fields::PAID),
        ("USM_LEG_FILLER", fields::FILLER),
        ("USM_FILL_ACTION", fields::ACTION),
        ("USM_CLAIM_GROUP", fields::GROUP),
        ("USM_CLAIM_MARGIN", fields::CLAIM_MARGIN),
    ] {
        assert_eq!(constant(name), at as u64, "{name}");
    }
}

#[test]
fn terms_tables_and_sizes_have_rusts_numbers() {
    for (name, number) in [
        ("USM_LONG", Side::Long as usize),
        ("USM_SHORT", Side::Short as usize),
        ("USM_CALL", OptionType::Call as usize),
        ("USM_PUT", OptionType::Put as usize),
        ("USM_AMERICAN", Style::American as usize),
        ("USM_EUROPEAN", Style::European as usize),
        ("USM_LISTED", Market::Listed as usize),
        ("USM_OTC", Market::Otc as usize),
        ("USM_HOLDINGS", Table::Holdings as usize),
        ("USM_PLACEMENT", Table::Placement as usize),
        ("USM_CLAIMS", Table::Claims as usize),
        ("USM_NOT_STATED", Settlement::NotStated as usize),
        ("USM_CASH", Settlement::Cash as usize),
        ("USM_PHYSICAL", Settlement::Physical as usize),
        ("USM_FILLS", usm::FILLS_TABLE as usize),
        ("USM_OPEN", Action::Open as usize),
        ("USM_CLOSE", Action::Close as usize),
        ("USM_MOST_FILLS", usm::MOST_FILLS),
        ("USM_OLD_FORM", Form::Old as usize),
        ("USM_NEW_FORM", Form::New as usize),
        ("USM_BLOCK_ACCOUNT", block::ACCOUNT_AT),
        ("USM_ANSWER_NUMBERS", Answer::default().len()),
        ("USM_RECORD_BYTES", usm::RECORD_BYTES),
        ("USM_MOST_LEGS", usm::MOST_LEGS),
        ("USM_MOST_CLAIMS", usm::MOST_CLAIMS),
        ("USM_LEGS_BYTES", Table::Placement.most_bytes()),
        ("USM_CLAIMS_BYTES", Table::Claims.most_bytes()),
        ("USM_LINE_BYTES", LINE_BYTES),
        ("USM_TABLE_BYTES", TABLE_BYTES),
        ("USM_BLOCK_BYTES", block::BLOCK_BYTES),
        ("USM_MOST_BLOCKS", block::MOST_BLOCKS),
        ("USM_LONGEST_FILE", block::LONGEST_FILE),
        ("USM_RECORDS_IN_BLOCK", block::RECORDS_IN_BLOCK),
        ("USM_BLOCK_RECORDS", block::RECORDS_AT),
        ("USM_BLOCK_CHECK_A", block::CHECKS_AT),
        ("USM_BLOCK_CHECK_B", block::CHECKS_AT + 2),
    ] {
        assert_eq!(constant(name), number as u64, "{name}");
    }
    assert!(HEADER.contains(&format!("USM_GREATEST_AMOUNT INT64_C({})", usm::GREATEST_AMOUNT)));
}

/// A file's first block says by its own bytes what stands where.
#[test]
fn a_block_begins_as_the_header_says() {
    let file = usm_kit::accounts::fullest().to_file().expect("a file");
    let at = |name: &str| constant(name) as usize;
    let last = &file[file.len() - block::BLOCK_BYTES..];
    assert_eq!(last[at("USM_BLOCK_MARK")..][..4], *b"USM1");
    assert_eq!(last[at("USM_BLOCK_KIND")], Table::Claims as u8);
    assert_eq!(last[at("USM_BLOCK_COUNT")], 2);
    assert_eq!(last[at("USM_BLOCK_NUMBER")], 38);
    assert_eq!(last[at("USM_BLOCK_BLOCKS")], 39);
}

fn is_in_name(c: char) -> bool {
    c.is_ascii_alphanumeric() || c == '_'
}

/// The names that start with `usm_` and are followed by an argument list.
fn calls_named_in(source: &str) -> BTreeSet<&str> {
    let (before_lists, _) = source.rsplit_once('(').unwrap_or_default();
    let names = before_lists.split('(').filter_map(|text| text.rsplit(|c: char| !is_in_name(c)).next());
    names.filter(|name| name.starts_with("usm_")).collect()
}

#[test]
fn the_header_and_the_rust_declarations_name_the_same_calls() {
    let header = calls_named_in(HEADER);
    assert_eq!(header.len(), 20, "{header:?}");
    assert_eq!(header, calls_named_in(include_str!("../../src/ffi.rs")));
}

#[test]
fn the_c_programs_make_every_call_of_the_header() {
    let header = calls_named_in(HEADER);
    for program in [include_str!("../../c/example.c"), include_str!("../../c/full.h")] {
        assert_eq!(header, calls_named_in(program));
    }
    // Where no slice stands there is none that could be empty.
    let with_slices: BTreeSet<&str> =
        HEADER.split(';').filter(|part| part.contains("_len")).flat_map(calls_named_in).collect();
    assert_eq!(with_slices, calls_named_in(include_str!("../../c/empty.c")));
}
