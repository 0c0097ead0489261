//! A list's lines: what is malformed (22), out of range (4), and of no root (24).

use usm::{root_table, Leg, Root};
use usm_kit::accounts::{leg, root, times};
use usm_kit::both::BOTH;

use super::{assert_list, assert_no_list, held, import};
use crate::refusal;

const LINE: &str = "AAPL  110521C00060000 L 5\n";

fn apple() -> Vec<u8> {
    root_table(&[root("AAPL")])
}

/// This as the second of three lines is refused with that number.
#[track_caller]
fn assert_line_refused(line: &str, number: u64) {
    assert_no_list(&apple(), [LINE, line, LINE].concat().as_bytes(), (number, 6, 1));
    assert_no_list(&apple(), line.as_bytes(), (number, 6, 0));
}

#[test]
fn contracts_are_1_to_100_000_without_a_leading_zero() {
    for contracts in [1, 9, 10, 99_999, 100_000] {
        let line = format!("AAPL  110521C00060000 L {contracts}\n");
        assert_list(&[root("AAPL")], &line, &[held(times(contracts, "L60c"))]);
    }
    for contracts in
        ["0", "007", "01", "000001", "1234567", "0100000", "1000000", "", "-1", "+1", "1 ", " 1", "1,000"]
    {
        assert_line_refused(&format!("AAPL  110521C00060000 L {contracts}\n"), 22);
    }
    for contracts in ["100001", "999999"] {
        assert_line_refused(&format!("AAPL  110521C00060000 L {contracts}\n"), 4);
    }
}

#[test]
fn strikes_are_8_digits_and_not_0() {
    for strike in [1, 10, 99_999_999] {
        let line = format!("AAPL  110521C{strike:08} L 1\n");
        assert_list(&[root("AAPL")], &line, &[held(Leg { strike, ..leg("L60c") })]);
    }
    assert_line_refused("AAPL  110521C00000000 L 1\n", 4);
    for strike in ["0000006A", "6000000", "060000000", "00060.00", "   60000", "-0060000"] {
        assert_line_refused(&format!("AAPL  110521C{strike} L 1\n"), 22);
    }
}

#[test]
fn dates_are_real_ones_of_2000_to_2099() {
    for (date, expiry) in [
        ("120229", 20120229),
        ("000229", 20000229),
        ("000101", 20000101),
        ("991231", 20991231),
        ("110228", 20110228),
        ("110430", 20110430),
    ] {
        let line = format!("AAPL  {date}C00060000 L 1\n");
        assert_list(&[root("AAPL")], &line, &[held(Leg { expiry, ..leg("L60c") })]);
    }
    for date in ["110229", "110431", "111301", "110001", "110500", "110532", "000000", "999999"] {
        assert_line_refused(&format!("AAPL  {date}C00060000 L 1\n"), 4);
    }
    for date in ["11052A", "1105 1", "11-521", "MAY 21"] {
        assert_line_refused(&format!("AAPL  {date}C00060000 L 1\n"), 22);
    }
}

#[test]
fn roots_are_1_to_6_of_letters_and_digits_a_letter_first() {
    for name in ["A", "Z", "AB", "A1", "AAPL7", "ABC123", "Z00000"] {
        let roots = [root("AAPL"), Root { underlying: 8, ..root(name) }];
        let line = format!("{name:<6}110521C00060000 L 1\n");
        assert_list(&roots, &line, &[held(Leg { underlying: 8, ..leg("L60c") })]);
    }
    for name in
        ["1AAPL ", "AA PL ", "A    L", "aapl  ", "AAPl  ", " AAPL ", "      ", "AA-PL ", "AAPL\t ", "AAPL. "]
    {
        assert_line_refused(&format!("{name}110521C00060000 L 1\n"), 22);
    }
    // Well formed, and not in the table.
    for name in ["A     ", "AAP   ", "AAPLX ", "AAPL7 ", "MSFT  ", "AAPLAA"] {
        assert_line_refused(&format!("{name}110521C00060000 L 1\n"), 24);
    }
}

#[test]
fn a_line_has_just_that_form() {
    for line in [
        "\n",
        " \n",
        "AAPL\n",
        "AAPL  110521C00060000\n",
        "AAPL  110521C00060000 L\n",
        "AAPL  110521C00060000 L \n",
        "AAPL  110521C00060000  L 5\n",
        "AAPL  110521C00060000 L  5\n",
        "AAPL  110521C00060000 L 5 \n",
        "AAPL  110521C00060000\tL 5\n",
        "AAPL  110521C00060000 L\t5\n",
        "AAPL  110521C00060000LL 5\n",
        "AAPL  110521C00060000 L-5\n",
        "AAPL  110521C00060000 l 5\n",
        "AAPL  110521C00060000 X 5\n",
        "AAPL  110521C00060000 LS 5\n",
        "AAPL  110521c00060000 L 5\n",
        "AAPL  110521X00060000 L 5\n",
        "AAPL 110521C00060000 L 5\n",
        "AAPL   110521C00060000 L 5\n",
        " AAPL  110521C00060000 L 5\n",
        "AAPL  20110521C00060000 L 5\n",
        "AAPL  110521C00060000 L 5\r\n",
        "AAPL  110521C00060000 L 5\0\n",
        "AAPL  110521C00060000 L 5é\n",
        "AAPL  110521C0006000\u{660} L 5\n",
    ] {
        assert_line_refused(line, 22);
    }
    assert_no_list(&apple(), b"AAPL  110521C00060000 L 5\xFF\n", (22, 6, 0));
}

#[test]
fn every_line_ends_with_a_newline() {
    let whole = [LINE, LINE].concat();
    for cut in 1..LINE.len() {
        assert_no_list(&apple(), &whole.as_bytes()[..whole.len() - cut], (22, 6, 1));
    }
    for past in ["A", " ", "\r", "\0", "AAPL  110521C00060000 L 5"] {
        assert_no_list(&apple(), [&whole, past].concat().as_bytes(), (22, 6, 2));
    }
}

#[test]
fn within_a_line_22_comes_first_then_4_then_24() {
    assert_line_refused("MSFT  110229C00060000 L 007\n", 22);
    assert_line_refused("msft  110229C00060000 L 5\n", 22);
    assert_line_refused("MSFT  110229C00060000 L 5\n", 4);
    assert_line_refused("MSFT  110521C00000000 L 5\n", 4);
    assert_line_refused("MSFT  110521C00060000 L 100001\n", 4);
    assert_line_refused("MSFT  110521C00060000 L 5\n", 24);
    // Lines in order, whatever is wrong with them.
    let list = ["MSFT  110521C00060000 L 5\n", "AAPL  110229C00060000 L 5\n", "AAPL\n"];
    assert_no_list(&apple(), list.concat().as_bytes(), (24, 6, 0));
    assert_no_list(&apple(), list[1..].concat().as_bytes(), (4, 6, 0));
    assert_no_list(&apple(), list[2..].concat().as_bytes(), (22, 6, 0));
}

#[test]
fn lines_are_at_most_256_and_all_are_judged_first() {
    assert_list(&[root("AAPL")], &LINE.repeat(256), &[held(times(5, "L60c")); 256]);
    for lines in [257, 258, 1_000] {
        assert_no_list(&apple(), LINE.repeat(lines).as_bytes(), (1, 0, 0));
    }
    assert_no_list(&apple(), [&LINE.repeat(256), "AAPL\n"].concat().as_bytes(), (22, 6, 256));
    assert_no_list(&apple(), [&LINE.repeat(300), "AAPL"].concat().as_bytes(), (22, 6, 300));
    let unknown = "MSFT  110521C00060000 L 5\n";
    assert_no_list(&apple(), [&LINE.repeat(999), unknown, LINE].concat().as_bytes(), (24, 6, 999));
    // 1 before 17.
    for calls in &BOTH {
        let list = LINE.repeat(257);
        assert_eq!(import(calls, &apple(), list.as_bytes(), 0), refusal(1, 0, 0), "{}", calls.name);
        assert_eq!(
            import(calls, &apple(), LINE.repeat(256).as_bytes(), 8_191),
            refusal(17, 1, 8_192),
            "{}",
            calls.name
        );
    }
}
