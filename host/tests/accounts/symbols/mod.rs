//! Lists of option symbols (document 02, [9]), worked by hand.

mod lines;
mod records;
mod roots;

use usm::{leg_table, root_table, Leg, Market, Refusal, Root, Settlement, Style, RECORD_BYTES};
use usm_kit::accounts::{in_group, leg, root, times};
use usm_kit::both::{Calls, BOTH};

use crate::refusal;

const UNWRITTEN: u8 = 0xA5;

/// What a call wrote into a buffer of this room; all else in it has to be as it was.
fn written(
    name: &str,
    room: usize,
    unit: usize,
    call: impl FnOnce(&mut [u8]) -> Result<usize, Refusal>,
) -> Result<Vec<u8>, Refusal> {
    let mut lent = vec![UNWRITTEN; room];
    let answer = call(&mut lent);
    let output = answer.map_or(0, |count| count * unit);
    assert!(lent[output..].iter().all(|byte| *byte == UNWRITTEN), "{name}: what lies past stays");
    lent.truncate(output);
    answer.map(|_| lent)
}

fn import(calls: &Calls, roots: &[u8], list: &[u8], room: usize) -> Result<Vec<u8>, Refusal> {
    written(calls.name, room, RECORD_BYTES, |holdings| (calls.import)(roots, list, holdings))
}

fn export(calls: &Calls, roots: &[u8], holdings: &[u8], room: usize) -> Result<Vec<u8>, Refusal> {
    written(calls.name, room, 1, |list| (calls.export)(roots, holdings, list))
}

/// Document 01's terms, and two other roots that share all but their style and settlement.
fn three_roots() -> Vec<Root> {
    let index = Root { style: Style::European, settlement: Settlement::Cash, ..root("SPX") };
    vec![root("AAPL"), index, Root { settlement: Settlement::Physical, ..Root { name: *b"A     ", ..index } }]
}

/// The list says these holdings, and they say the list, by library and model.
#[track_caller]
fn assert_list(roots: &[Root], list: &str, holdings: &[Leg]) {
    let (roots, table) = (root_table(roots), leg_table(holdings));
    for calls in &BOTH {
        assert_eq!(import(calls, &roots, list.as_bytes(), 8_192), Ok(table.clone()), "{}", calls.name);
        assert_eq!(export(calls, &roots, &table, 7_936), Ok(list.as_bytes().to_vec()), "{}", calls.name);
    }
}

/// The list is refused, by library and model.
#[track_caller]
fn assert_no_list(roots: &[u8], list: &[u8], (number, table, place): (u64, u64, u64)) {
    for calls in &BOTH {
        let text = String::from_utf8_lossy(list);
        assert_eq!(
            import(calls, roots, list, 9_999),
            refusal(number, table, place),
            "{}: {text}",
            calls.name
        );
    }
}

/// The holdings are refused, by library and model.
#[track_caller]
fn assert_no_holdings(roots: &[u8], holdings: &[u8], (number, table, place): (u64, u64, u64)) {
    for calls in &BOTH {
        assert_eq!(export(calls, roots, holdings, 9_999), refusal(number, table, place), "{}", calls.name);
    }
}

fn held(leg: Leg) -> Leg {
    in_group(0, leg)
}

#[test]
fn a_line_is_a_record_and_a_record_a_line() {
    assert_list(&[root("AAPL")], "AAPL  110521C00060000 L 5\n", &[held(times(5, "L60c"))]);
    let index = Leg {
        style: Style::European,
        settlement: Settlement::Cash,
        strike: 1_250_500,
        ..held(times(12, "S60p"))
    };
    assert_list(&three_roots(), "SPX   110521P01250500 S 12\n", &[index]);
    let greatest = Root {
        name: *b"ZZZZZ9",
        style: Style::European,
        market: Market::Otc,
        unit_size: 1_000,
        settlement: Settlement::Physical,
        underlying: u32::MAX,
    };
    let most = Leg {
        style: Style::European,
        market: Market::Otc,
        unit_size: 1_000,
        settlement: Settlement::Physical,
        underlying: u32::MAX,
        strike: 99_999_999,
        expiry: 20991231,
        ..held(times(100_000, "S1p"))
    };
    assert_list(&[greatest], "ZZZZZ9991231P99999999 S 100000\n", &[most]);
}

#[test]
fn lines_keep_their_order_and_may_come_back() {
    let list = "AAPL  110521C00060000 L 5\nAAPL  110521C00050000 S 5\nA     110521C00060000 L 1\n\
                AAPL  110521C00060000 L 5\n";
    let other = Leg { style: Style::European, settlement: Settlement::Physical, ..held(leg("L60c")) };
    let twice = held(times(5, "L60c"));
    assert_list(&three_roots(), list, &[twice, held(times(5, "S50c")), other, twice]);
}

#[test]
fn an_empty_list_is_good() {
    assert_list(&three_roots(), "", &[]);
    for calls in &BOTH {
        let roots = root_table(&three_roots());
        assert_eq!((calls.import)(&roots, &[], &mut []), Ok(0), "{}", calls.name);
        assert_eq!((calls.export)(&roots, &[], &mut []), Ok(0), "{}", calls.name);
    }
}

#[test]
fn there_is_room_or_it_is_17() {
    let roots = root_table(&[root("AAPL")]);
    let list = b"AAPL  110521C00060000 L 5\nAAPL  110521C00050000 S 50\n";
    let table = leg_table(&[held(times(5, "L60c")), held(times(50, "S50c"))]);
    for calls in &BOTH {
        for room in [0, 1, 32, 63] {
            assert_eq!(import(calls, &roots, list, room), refusal(17, 1, 64), "{}", calls.name);
        }
        for room in [0, 26, 52] {
            assert_eq!(export(calls, &roots, &table, room), refusal(17, 6, 53), "{}", calls.name);
        }
        for past in [0, 1, 100] {
            assert_eq!(import(calls, &roots, list, 64 + past), Ok(table.clone()), "{}", calls.name);
            assert_eq!(export(calls, &roots, &table, 53 + past), Ok(list.to_vec()), "{}", calls.name);
        }
    }
}
