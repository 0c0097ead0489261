//! Records that are written as lines: sizes (1), fields (4) and terms (24).

use usm::{leg_table, root_table, Leg, Market, Settlement, Style};
use usm_kit::accounts::{leg, root, times};
use usm_kit::both::BOTH;
use usm_kit::fields::{
    put, CONTRACTS, EXPIRY, FILLER, GROUP, MARKET, PAID, SETTLEMENT, SIDE, STRIKE, STYLE, TYPE, UNDERLYING,
    UNIT_SIZE,
};

use super::{assert_no_holdings, export, held, three_roots};
use crate::refusal;

fn roots() -> Vec<u8> {
    root_table(&three_roots())
}

fn three_records() -> Vec<u8> {
    leg_table(&[held(leg("L60c")), held(times(2, "S70p")), held(times(3, "L80c"))])
}

#[test]
fn holdings_are_whole_records_and_at_most_256() {
    let one = held(leg("L60c"));
    for calls in &BOTH {
        let list = b"AAPL  110521C00060000 L 1\n".repeat(256);
        assert_eq!(export(calls, &roots(), &leg_table(&[one; 256]), 7_936), Ok(list), "{}", calls.name);
        // 1 before 17.
        assert_eq!(export(calls, &roots(), &[0; 33], 0), refusal(1, 0, 0), "{}", calls.name);
    }
    assert_no_holdings(&roots(), &leg_table(&[one; 257]), (1, 0, 0));
    for cut in [1, 16, 31] {
        assert_no_holdings(&roots(), &three_records()[cut..], (1, 0, 0));
    }
    // 1 before a field.
    assert_no_holdings(&roots(), &[9; 257 * 32], (1, 0, 0));
}

#[test]
fn a_field_out_of_range_and_a_paid_mark_are_4() {
    for (field, value) in [
        (GROUP, 1),
        (SIDE, 0),
        (SIDE, 3),
        (TYPE, 0),
        (TYPE, 3),
        (STYLE, 3),
        (MARKET, 0),
        (UNIT_SIZE, 0),
        (UNIT_SIZE, 1_001),
        (UNDERLYING, 0),
        (STRIKE, 0),
        (STRIKE, 100_000_000),
        (EXPIRY, 20110229),
        (EXPIRY, 19991231),
        (EXPIRY, 21000101),
        (CONTRACTS, 0),
        (CONTRACTS, 100_001),
        (SETTLEMENT, 3),
        (PAID, 1),
        (PAID, 2),
        (FILLER, 1),
    ] {
        for place in 0..3 {
            let mut table = three_records();
            put(&mut table, place, field, value);
            assert_no_holdings(&roots(), &table, (4, 1, place as u64));
            // 4 before 24 in a record, and records in order.
            put(&mut table, place, UNIT_SIZE, if field == UNIT_SIZE { value } else { 7 });
            assert_no_holdings(&roots(), &table, (4, 1, place as u64));
            put(&mut table, 0, UNDERLYING, if field == UNDERLYING && place == 0 { value } else { 9 });
            let first = if place == 0 { (4, 1, 0) } else { (24, 1, 0) };
            assert_no_holdings(&roots(), &table, first);
        }
    }
}

#[test]
fn terms_that_no_root_stands_for_are_24() {
    let apple = held(leg("L60c"));
    for other in [
        Leg { style: Style::European, ..apple },
        Leg { market: Market::Otc, ..apple },
        Leg { unit_size: 10, ..apple },
        Leg { settlement: Settlement::Cash, ..apple },
        Leg { underlying: 8, ..apple },
        Leg { underlying: 7 + (1 << 16), ..apple },
    ] {
        assert_no_holdings(&root_table(&[root("AAPL")]), &leg_table(&[apple, apple, other]), (24, 1, 2));
        assert_no_holdings(&root_table(&[root("AAPL")]), &leg_table(&[other, apple]), (24, 1, 0));
    }
}
