//! European long boxes (document 02, [2]), worked by hand.

use usm::{Accepted, Leg, Market, Style};
use usm_kit::accounts::{leg, placed, times};
use usm_kit::both::BOTH;

use crate::{assert_line, assert_margin, assert_verdict, nets, refusal};

/// A leg in the bench's notation, as a European one.
fn european(notation: &str) -> Leg {
    Leg { style: Style::European, ..leg(notation) }
}

/// P5 with European legs: units times difference is 1,000,000 mills.
fn long_box() -> [Leg; 4] {
    ["L50c", "S60c", "L60p", "S50p"].map(european)
}

/// The box with each leg changed so.
fn each(change: impl Fn(Leg) -> Leg) -> [Leg; 4] {
    long_box().map(change)
}

#[test]
fn p5_as_european_needs_half_of_the_difference() {
    assert_margin(&long_box(), Ok(500_000));
    for calls in &BOTH {
        assert_eq!(nets(calls, &long_box()), Ok(vec![1_000_000; 2]), "{}: the nets stay", calls.name);
    }
    assert_line(&placed(&long_box(), &[500_000]), "ACCEPT 1 500000");
    // What document 01 asked for, and what a half would be half of, are no margins of it.
    for claim in [0, 499_999, 500_001, 1_000_000] {
        assert_verdict(&placed(&long_box(), &[claim]), refusal(16, 3, 1));
    }
}

#[test]
fn the_customer_sees_the_half_above_nets_that_stay() {
    let file = placed(&long_box(), &[500_000]).to_file().expect("a file");
    for calls in &BOTH {
        let table = "GROUP 1 500000\n50000 1000000\n60000 1000000\n";
        assert_eq!((calls.file_table)(&file), table, "{}", calls.name);
    }
}

#[test]
fn american_and_short_boxes_stay_what_they_were() {
    assert_margin(&each(|leg| Leg { style: Style::American, ..leg }), Ok(0));
    assert_margin(&["S50c", "L60c", "S60p", "L50p"].map(european), Ok(1_000_000));
}

#[test]
fn a_half_mill_is_rounded_up_once() {
    // Strikes a mill apart: half of the units themselves.
    let units = |unit_size, contracts| {
        each(|leg| {
            let strike = if leg.strike == 60_000 { 50_001 } else { 50_000 };
            Leg { strike, unit_size, contracts, ..leg }
        })
    };
    for (unit_size, contracts, half) in
        [(1, 1, 1), (1, 2, 1), (1, 3, 2), (3, 5, 8), (1_000, 99_999, 49_999_500)]
    {
        assert_margin(&units(unit_size, contracts), Ok(half));
    }
    // Two records of an odd product each: half of the sum, not the sum of two halves rounded up.
    let twice = [units(1, 1), units(1, 1)].concat();
    assert_margin(&twice, Ok(1));
}

#[test]
fn the_market_and_the_order_of_the_legs_do_not_matter() {
    assert_margin(&each(|leg| Leg { market: Market::Otc, ..leg }), Ok(500_000));
    for places in [[1, 0, 3, 2], [3, 2, 1, 0], [2, 3, 0, 1], [1, 3, 0, 2]] {
        assert_margin(&places.map(|place| long_box()[place]), Ok(500_000));
    }
}

#[test]
fn records_of_a_kind_are_added_in_units() {
    let [long_call, short_call, long_put, short_put] = long_box();
    let small = |contracts, leg| Leg { unit_size: 10, contracts, ..leg };
    // Ten contracts of unit 10 are one of unit 100; one kind in three records.
    let legs = [
        small(4, long_call),
        small(10, short_call),
        small(5, long_call),
        long_put,
        Leg { unit_size: 1, contracts: 10, ..long_call },
        short_put,
    ];
    assert_margin(&legs, Ok(500_000));
    // As many contracts everywhere, but not as many units.
    assert_margin(&[small(1, long_call), short_call, long_put, short_put], refusal(11, 2, 1));
    // Calls and puts balance each by themselves, and differ from one another: no box, no loss.
    let twice = |leg| Leg { contracts: 2, ..leg };
    assert_margin(&[twice(long_call), twice(short_call), long_put, short_put], Ok(0));
}

#[test]
fn the_widest_box_has_the_greatest_half() {
    let legs: Vec<Leg> = (0..64)
        .flat_map(|_| {
            each(|leg| Leg {
                strike: if leg.strike == 60_000 { 99_999_999 } else { 1 },
                unit_size: 1_000,
                contracts: 100_000,
                ..leg
            })
        })
        .collect();
    // 64 times 100,000 times 1,000 units, times 99,999,998 mills, halved.
    assert_margin(&legs, Ok(319_999_993_600_000_000));
}

#[test]
fn one_leg_too_many_or_another_strike_is_no_box() {
    let with = |extra: &[Leg]| [&long_box()[..], extra].concat();
    // A vertical of two other strikes, and one that shares both of its strikes with the box.
    assert_margin(&with(&["L70c", "S80c"].map(european)), Ok(0));
    assert_margin(&with(&["L50c", "S60c"].map(european)), Ok(0));
    assert_margin(&with(&["L40p", "S50p"].map(european)), Ok(0));
    // Puts at other strikes than the calls.
    assert_margin(&["L50c", "S60c", "L65p", "S55p"].map(european), Ok(0));
    // Half of the legs.
    assert_margin(&["L50c", "S60c"].map(european), Ok(0));
    assert_margin(&["L60p", "S50p"].map(european), Ok(0));
}

#[test]
fn two_expiries_are_no_box() {
    let later = |leg: Leg| Leg { expiry: if leg.side as u8 == 1 { 20110618 } else { leg.expiry }, ..leg };
    assert_margin(&each(later), Ok(0));
    let [long_call, short_call, long_put, short_put] = long_box();
    assert_margin(&[later(long_call), short_call, long_put, short_put], Ok(0));
}

#[test]
fn a_box_beside_another_group_is_added_to_the_total() {
    let vertical = [times(1, "L60c"), times(1, "S50c")].map(|leg| Leg { group: 2, ..leg });
    let legs = [&long_box()[..], &vertical].concat();
    assert_verdict(
        &placed(&legs, &[500_000, 1_000_000]),
        Ok(Accepted { groups: 2, total: 1_500_000, work: 8 + 4 }),
    );
}
