//! Rows P1 to P12, and the lines a sheet prints.

use usm::{Leg, Sheet};
use usm_kit::accounts::{in_group, leg, paid, placed, times};
use usm_kit::both::BOTH;

use crate::{assert_line, assert_margin, nets, refusal};

/// A row that is a spread: legs in group 1, their margin, and the net at each strike.
#[track_caller]
fn spread(legs: &[Leg], margin: i64, expected: &[i64]) {
    assert_margin(legs, Ok(margin));
    for calls in &BOTH {
        assert_eq!(nets(calls, legs), Ok(expected.to_vec()), "{}", calls.name);
    }
}

/// A row that is none: margin and worksheet are refused alike.
#[track_caller]
fn refused(legs: &[Leg], number: u64) {
    assert_margin(legs, refusal(number, 2, 1));
    for calls in &BOTH {
        assert_eq!(nets(calls, legs), refusal(number, 2, 1), "{}", calls.name);
    }
}

#[test]
fn p1_vertical() {
    spread(&[leg("L60c"), leg("S50c")], 1_000_000, &[0, -1_000_000]);
}

#[test]
fn p2_butterfly() {
    spread(&[leg("L50c"), times(2, "S60c"), leg("L70c")], 0, &[0, 1_000_000, 0]);
}

#[test]
fn p3_unequal_condor() {
    let legs = [times(10, "L50c"), times(10, "S55c"), times(5, "L70c"), times(5, "S60c")];
    spread(&legs, 0, &[0, 5_000_000, 5_000_000, 0]);
}

#[test]
fn p4_iron_condor() {
    spread(&[leg("L50p"), leg("S60p"), leg("S65c"), leg("L70c")], 1_000_000, &[-1_000_000, 0, 0, -500_000]);
}

#[test]
fn p5_long_box() {
    spread(&[leg("L50c"), leg("S60c"), leg("L60p"), leg("S50p")], 0, &[1_000_000, 1_000_000]);
}

#[test]
fn p6_short_box() {
    spread(&[leg("S50c"), leg("L60c"), leg("S60p"), leg("L50p")], 1_000_000, &[-1_000_000, -1_000_000]);
}

#[test]
fn p7_ten_of_unit_ten() {
    spread(&[Leg { unit_size: 10, ..times(10, "L60c") }, leg("S50c")], 1_000_000, &[0, -1_000_000]);
}

#[test]
fn p8_calendar() {
    spread(&[leg("S50c"), Leg { expiry: 20110618, ..leg("L50c") }], 0, &[0]);
}

#[test]
fn p9_a_short_outlives_a_long() {
    refused(&[Leg { expiry: 20100522, ..leg("L70c") }, leg("S60c")], 13);
}

#[test]
fn p10_a_put_does_not_pay_for_a_call() {
    refused(&[times(2, "S60c"), leg("L70c"), leg("L50p")], 11);
}

#[test]
fn p11_a_doubled_series() {
    refused(&[leg("L50c"), leg("S50c")], 10);
}

#[test]
fn p12_the_largest_leg() {
    let largest = |notation, strike| Leg { strike, unit_size: 1_000, ..times(100_000, notation) };
    let legs = [largest("S1c", 1), largest("L1c", 99_999_999)];
    spread(&legs, 9_999_999_800_000_000, &[0, -9_999_999_800_000_000]);
}

/// P4's legs, puts as group 1 and calls as group 2, with these claims.
fn two_groups(margins: [i64; 2]) -> Sheet {
    placed(&[leg("L50p"), leg("S60p"), in_group(2, leg("S65c")), in_group(2, leg("L70c"))], &margins)
}

#[test]
fn two_groups_print_their_total() {
    assert_line(&two_groups([1_000_000, 500_000]), "ACCEPT 2 1500000");
}

#[test]
fn a_claim_one_mill_short_is_16() {
    assert_line(&two_groups([1_000_000, 499_999]), "REFUSE 16 3 2");
}

#[test]
fn a_lone_unplaced_long_is_free() {
    assert_line(&placed(&[paid(leg("L50p"))], &[]), "ACCEPT 0 0");
    // Since document 02, [8], not without the mark.
    assert_line(&placed(&[in_group(0, leg("L50p"))], &[]), "REFUSE 15 2 0");
}
