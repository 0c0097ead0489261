//! Refusals of lists, of holdings to be listed, and of roots.

use usm::text::parse_roots;
use usm::{holdings_of_list, list_of_holdings, sentences, Leg, Refusal, Root, Settlement};
use usm_kit::accounts::{in_group, leg};

use crate::entry::entry;

fn roots(text: &str) -> Vec<Root> {
    parse_roots(text).expect("roots")
}

/// SPX, and AAPL whose terms are those of the notation's legs.
fn two_roots() -> Vec<Root> {
    roots("SPX european listed unit 100 cash underlying 9\nAAPL american listed unit 100 underlying 7")
}

fn of_list(name: &str, roots: &[Root], list: &[u8]) -> String {
    let refusal = holdings_of_list(roots, list).expect_err(name);
    entry(name, &refusal, &sentences::of_import(roots, list, &refusal))
}

fn of_holdings(name: &str, roots: &[Root], holdings: &[Leg]) -> String {
    let refusal = list_of_holdings(roots, holdings).expect_err(name);
    entry(name, &refusal, &sentences::of_export(roots, holdings, &refusal))
}

/// The line that the others are changes of.
const GOOD: &str = "AAPL  110521C00060000 L 5";

fn malformed() -> String {
    let long = "x".repeat(100);
    let lines = [
        ("an empty line", ""),
        ("no root", "      110521C00060000 L 5"),
        ("a digit first", "1APL  110521C00060000 L 5"),
        ("small letters", "aapl  110521C00060000 L 5"),
        ("a blank inside", "AA PL 110521C00060000 L 5"),
        ("a root of seven", "AAPLAAP110521C00060000 L 5"),
        ("a line too short", "AAPL"),
        ("a date with a letter", "AAPL  11O521C00060000 L 5"),
        ("no C or P", "AAPL  110521c00060000 L 5"),
        ("a strike in dollars", "AAPL  110521C60.000 L 5"),
        ("no blank", "AAPL  110521C00060000-L 5"),
        ("no side", "AAPL  110521C00060000 l 5"),
        ("two blanks", "AAPL  110521C00060000 L  5"),
        ("no blank behind the side", "AAPL  110521C00060000 L5"),
        ("no contracts", "AAPL  110521C00060000 L "),
        ("contracts 0", "AAPL  110521C00060000 L 0"),
        ("a leading zero", "AAPL  110521C00060000 L 007"),
        ("seven digits", "AAPL  110521C00060000 L 1234567"),
        ("a comma", "AAPL  110521C00060000 L 1,000"),
        ("a blank behind", "AAPL  110521C00060000 L 5 "),
        ("a carriage return", "AAPL  110521C00060000 L 5\r"),
        ("carriage returns alone", "AAPL  110521C00060000 L 5\rAAPL  110521C00060000 L 5"),
        ("a line of something else", &long),
    ];
    let of_line = |(name, line): (&str, &str)| {
        of_list(name, &two_roots(), format!("{GOOD}\n{line}\n{GOOD}\n").as_bytes())
    };
    lines.map(of_line).concat()
        + &of_list("bytes that are no text", &two_roots(), b"AAPL\xFF 110521C00060000 L 5\n")
        + &of_list("no newline", &two_roots(), format!("{GOOD}\n{GOOD}").as_bytes())
}

fn out_of_range() -> String {
    let of_line = |name: &str, line: &str| of_list(name, &two_roots(), format!("{line}\n").as_bytes());
    [
        of_line("no such date", "AAPL  110229C00060000 L 5"),
        of_line("month 0", "AAPL  000015C00060000 L 5"),
        of_line("a strike of 0", "AAPL  110521C00000000 L 5"),
        of_line("too many contracts", "AAPL  110521C00060000 L 100001"),
        of_line("all of these", "AAPL  111301P00000000 S 999999"),
        of_line("an unknown root", "SPXW  110521C00060000 L 5"),
        of_list("257 lines", &two_roots(), format!("{GOOD}\n").repeat(257).as_bytes()),
    ]
    .concat()
}

fn of_roots() -> String {
    let [spx, aapl]: [Root; 2] = two_roots().try_into().expect("two roots");
    let with = |name: &str, root: Root| of_list(name, &[spx, root], b"");
    let many = vec![spx; 257];
    [
        of_list("no roots", &[], b""),
        of_holdings("257 roots", &many, &[]),
        with("an ill formed name", Root { name: *b"A\x07\xFF   ", ..aapl }),
        with("a blank before the name", Root { name: *b" AAPL ", ..aapl }),
        with("no unit size", Root { unit_size: 0, ..aapl }),
        with("no underlying", Root { underlying: 0, ..aapl }),
        with("a name twice", Root { name: spx.name, ..aapl }),
        with("terms twice", Root { name: aapl.name, ..spx }),
        of_holdings("a first root out of range", &[Root { unit_size: 1_001, ..spx }], &[]),
    ]
    .concat()
}

fn of_records() -> String {
    let held = in_group(0, leg("L60c"));
    let second = |name: &str, leg: Leg| of_holdings(name, &two_roots(), &[held, leg]);
    [
        second("marked as paid", Leg { paid: true, ..held }),
        second("in a group", in_group(3, held)),
        second("a strike of 0 and a mark", Leg { strike: 0, paid: true, ..held }),
        second("terms of no root", Leg { settlement: Settlement::Physical, ..held }),
        of_holdings("257 records", &two_roots(), &vec![held; 257]),
    ]
    .concat()
}

pub fn sentences() -> String {
    [malformed(), out_of_range(), of_roots(), of_records()].concat()
}

#[test]
fn a_refusal_of_something_else_has_a_sentence() {
    for number in 0..=25 {
        for table in 0..=7 {
            for place in [0, 1, 300, u64::MAX] {
                let refusal = Refusal::new(number, table, place);
                assert!(!sentences::of_import(&two_roots(), GOOD.as_bytes(), &refusal).is_empty());
                assert!(!sentences::of_export(&[], &[in_group(0, leg("L60c"))], &refusal).is_empty());
                assert!(!sentences::of_line(b"", &refusal).is_empty());
            }
        }
    }
    let line = Refusal::new(24, 6, 9);
    assert_eq!(sentences::of_import(&[], GOOD.as_bytes(), &line), line.to_string());
}
