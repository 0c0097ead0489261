//! Credit event binaries (document 02, [11]): the cells of circular RG11-039, its edges, and pairs.

use usm::{binary_cell, Binary, Cell, LongBinary, Refusal, Side, SPREADS, TIMES};
use usm_kit::both::BOTH;

use crate::refusal;

/// The day on which all are valued that say no other.
const VALUED: u64 = 20110315;

/// One contract of each row of the circular, in mills: a spread of the row, and what it needs for a year or less, to
/// three years, to seven, beyond.
const LONG: [(u64, [i64; 4]); 5] = [
    (50, [5_000, 10_000, 20_000, 35_000]),
    (200, [10_000, 25_000, 35_000, 50_000]),
    (400, [25_000, 50_000, 75_000, 100_000]),
    (600, [50_000, 75_000, 100_000, 125_000]),
    (800, [75_000, 100_000, 125_000, 150_000]),
];

const SHORT: [(u64, [i64; 4]); 5] = [
    (50, [10_000, 20_000, 40_000, 70_000]),
    (200, [20_000, 50_000, 70_000, 100_000]),
    (400, [50_000, 100_000, 150_000, 200_000]),
    (600, [100_000, 150_000, 200_000, 250_000]),
    (800, [150_000, 200_000, 250_000, 300_000]),
];

/// An expiry well inside of each column.
const EXPIRIES: [u64; 4] = [20110915, 20130315, 20160620, 20190101];

/// The margin of a position, by library and model.
#[track_caller]
fn assert_binary(
    side: Side,
    [spread, valuation, expiry, contracts]: [u64; 4],
    expected: Result<i64, Refusal>,
) {
    for calls in &BOTH {
        let found = (calls.binary_margin)(side, spread, valuation, expiry, contracts);
        assert_eq!(found, expected, "{}: {spread} {valuation} {expiry} {contracts}", calls.name);
    }
}

/// The margin of a pair, by library and model.
#[track_caller]
fn assert_pair(long: LongBinary, short: Binary, expected: Result<i64, Refusal>) {
    for calls in &BOTH {
        assert_eq!((calls.binary_pair)(VALUED, long, short), expected, "{}: {long:?} {short:?}", calls.name);
    }
}

#[test]
fn every_cell_is_that_of_the_circular() {
    for (side, table) in [(Side::Long, LONG), (Side::Short, SHORT)] {
        for (row, (spread, margins)) in table.into_iter().enumerate() {
            for (column, (expiry, margin)) in EXPIRIES.into_iter().zip(margins).enumerate() {
                assert_binary(side, [spread, VALUED, expiry, 1], Ok(margin));
                assert_binary(side, [spread, VALUED, expiry, 100_000], Ok(100_000 * margin));
                let cell = Cell { row, column };
                assert_eq!(binary_cell(spread, VALUED, expiry), Ok(cell));
                assert_eq!(cell.of_one(side), margin, "{} {}", SPREADS[row], TIMES[column]);
            }
        }
    }
}

#[test]
fn a_spread_on_an_edge_takes_the_higher_row() {
    for (spread, margin) in [
        (0, 5_000),
        (99, 5_000),
        (100, 10_000),
        (299, 10_000),
        (300, 25_000),
        (499, 25_000),
        (500, 50_000),
        (699, 50_000),
        (700, 75_000),
        (100_000, 75_000),
    ] {
        assert_binary(Side::Long, [spread, VALUED, VALUED, 1], Ok(margin));
    }
}

#[test]
fn years_end_on_the_same_month_and_day() {
    for (valuation, expiry, margin) in [
        (20110315, 20110315, 5_000),
        (20110315, 20120315, 5_000),
        (20110315, 20120316, 10_000),
        (20110315, 20140315, 10_000),
        (20110315, 20140316, 20_000),
        (20110315, 20180315, 20_000),
        (20110315, 20180316, 35_000),
        // A missing 29 February is the 28th.
        (20120229, 20130228, 5_000),
        (20120229, 20130301, 10_000),
        (20120229, 20150228, 10_000),
        (20120229, 20150301, 20_000),
        (20120229, 20190228, 20_000),
        (20120229, 20190301, 35_000),
        // From the 28th a year ends on the 28th, also where there is a 29th.
        (20110228, 20120228, 5_000),
        (20110228, 20120229, 10_000),
        // Ends that lie past the last date.
        (20981231, 20991231, 5_000),
        (20981230, 20991231, 10_000),
        (20961231, 20991231, 10_000),
        (20961230, 20991231, 20_000),
        (20921231, 20991231, 20_000),
        (20921230, 20991231, 35_000),
        (20991231, 20991231, 5_000),
        (20960229, 20991231, 20_000),
    ] {
        assert_binary(Side::Long, [0, valuation, expiry, 1], Ok(margin));
    }
}

#[test]
fn what_is_out_of_range_is_4_and_then_25() {
    for side in [Side::Long, Side::Short] {
        for numbers in [
            [100_001, VALUED, VALUED, 1],
            [0, VALUED, VALUED, 0],
            [0, VALUED, VALUED, 100_001],
            [0, 20110229, 20120101, 1],
            [0, VALUED, 20120431, 1],
            [0, 19991231, VALUED, 1],
            [0, VALUED, 21000101, 1],
            // Before the valuation date as well.
            [100_001, VALUED, 20110314, 1],
            [0, VALUED, 20110314, 0],
        ] {
            assert_binary(side, numbers, refusal(4, 0, 0));
        }
        assert_binary(side, [0, VALUED, 20110314, 1], refusal(25, 0, 0));
    }
}

const WRITTEN: Binary = Binary { reference: 7, spread: 250, expiry: 20160620, contracts: 10 };

fn paid(binary: Binary) -> LongBinary {
    LongBinary { binary, paid: true }
}

#[test]
fn the_smaller_count_is_matched_and_the_rest_keeps_its_percentage() {
    assert_pair(paid(WRITTEN), WRITTEN, Ok(0));
    // Two shorts of 7%, and two longs of 3.5%, are left.
    assert_pair(paid(Binary { contracts: 8, ..WRITTEN }), WRITTEN, Ok(140_000));
    assert_pair(paid(Binary { contracts: 12, ..WRITTEN }), WRITTEN, Ok(70_000));
    // Each by its own spread and its own time: a long of 15% is left, and one short of 7%.
    let far = Binary { spread: 700, expiry: 20190101, ..WRITTEN };
    assert_pair(paid(Binary { contracts: 11, ..far }), WRITTEN, Ok(150_000));
    assert_pair(paid(Binary { contracts: 9, ..far }), WRITTEN, Ok(70_000));
}

#[test]
fn without_the_circulars_conditions_nothing_is_matched() {
    let apart = Ok(350_000 + 700_000);
    assert_pair(LongBinary { binary: WRITTEN, paid: false }, WRITTEN, apart);
    assert_pair(paid(Binary { reference: 8, ..WRITTEN }), WRITTEN, apart);
    assert_pair(paid(Binary { reference: 7 | 1 << 63, ..WRITTEN }), WRITTEN, apart);
    assert_pair(paid(Binary { expiry: 20160619, ..WRITTEN }), WRITTEN, apart);
    assert_pair(paid(Binary { expiry: 20160621, ..WRITTEN }), WRITTEN, Ok(0));
    // The number 0 is a reference obligation as any other.
    let zero = Binary { reference: 0, ..WRITTEN };
    assert_pair(paid(zero), zero, Ok(0));
}

#[test]
fn a_pair_is_refused_long_first_and_4_before_25() {
    let bad = Binary { contracts: 0, ..WRITTEN };
    let past = Binary { expiry: 20110314, ..WRITTEN };
    for (long, short, expected) in [
        (bad, bad, refusal(4, 0, 0)),
        (WRITTEN, bad, refusal(4, 0, 1)),
        (past, bad, refusal(4, 0, 1)),
        (bad, past, refusal(4, 0, 0)),
        (past, past, refusal(25, 0, 0)),
        (past, WRITTEN, refusal(25, 0, 0)),
        (WRITTEN, past, refusal(25, 0, 1)),
    ] {
        assert_pair(paid(long), short, expected);
        assert_pair(LongBinary { binary: long, paid: false }, short, expected);
    }
    for calls in &BOTH {
        // The valuation date is judged with the long.
        let no_date = (calls.binary_pair)(20110229, paid(WRITTEN), bad);
        assert_eq!(no_date, refusal(4, 0, 0), "{}", calls.name);
    }
}
