//! Reduced contracts against standard ones at one strike and expiry (document 02, [3]).

use usm::{Leg, Style};
use usm_kit::accounts::{in_group, leg, placed, times};
use usm_kit::both::BOTH;

use crate::{assert_line, assert_margin, assert_verdict, nets, refusal};

/// So many contracts of unit 10.
fn minis(contracts: u32, notation: &str) -> Leg {
    Leg { unit_size: 10, ..times(contracts, notation) }
}

#[test]
fn ten_minis_stand_against_one_standard_contract() {
    for legs in [[minis(10, "L50c"), leg("S50c")], [leg("L50c"), minis(10, "S50c")]] {
        assert_margin(&legs, Ok(0));
        for calls in &BOTH {
            assert_eq!(nets(calls, &legs), Ok(vec![0]), "{}", calls.name);
        }
        assert_line(&placed(&legs, &[0]), "ACCEPT 1 0");
    }
}

#[test]
fn one_unit_size_is_one_series() {
    assert_margin(&[leg("L50c"), leg("S50c")], refusal(10, 2, 1)); // P11 stays
    assert_margin(&[minis(10, "L50c"), minis(10, "S50c")], refusal(10, 2, 1));
    // A second long in the short's own unit size doubles the series, wherever it stands.
    for (legs, place) in [
        ([minis(10, "L50c"), times(2, "S50c"), leg("L50c")], 2),
        ([leg("L50c"), minis(10, "L50c"), times(2, "S50c")], 2),
        ([times(2, "S50c"), leg("L50c"), minis(10, "L50c")], 1),
    ] {
        assert_margin(&legs, refusal(10, 2, place));
    }
    // It is looked for before the units are counted.
    assert_margin(&[minis(1, "L50c"), minis(2, "S50c")], refusal(10, 2, 1));
}

#[test]
fn the_units_must_balance_all_the_same() {
    assert_margin(&[minis(9, "L50c"), leg("S50c")], refusal(11, 2, 1));
    assert_margin(&[minis(1, "L50c"), leg("S50c")], refusal(11, 2, 1));
    assert_margin(&[minis(11, "L50p"), leg("S50p")], refusal(12, 2, 1));
}

#[test]
fn other_terms_part_series_as_before() {
    assert_margin(&[leg("L50c"), leg("S60c")], Ok(0));
    assert_margin(&[Leg { expiry: 20110618, ..leg("L50c") }, leg("S50c")], Ok(0));
    // The put that is short is no series of the calls.
    assert_margin(&[leg("L50c"), leg("S60c"), leg("L60p"), leg("S50p")], Ok(0));
    // An expiry of its own does not make a short that outlives a long a spread.
    assert_margin(&[minis(10, "L50c"), Leg { expiry: 20110618, ..leg("S50c") }], refusal(13, 2, 1));
}

#[test]
fn unit_sizes_part_lines_as_before() {
    let mut sheet = placed(&[minis(10, "L50c"), leg("S50c")], &[0]);
    sheet.holdings[0] = in_group(0, leg("L50c"));
    assert_verdict(&sheet, refusal(14, 1, 0));
}

#[test]
fn a_box_with_a_mini_against_a_standard_contract_is_no_box() {
    let european = |leg: Leg| Leg { style: Style::European, ..leg };
    let long_box = ["L50c", "S60c", "L60p", "S50p"].map(|notation| european(leg(notation)));
    assert_margin(&long_box, Ok(500_000));
    // More of a leg of the box, and the other side of it: the pair is worth nothing at any price, but its
    // second leg is of a kind that no box has.
    for (same, other) in [("L50c", "S50c"), ("S60c", "L60c"), ("L60p", "S60p"), ("S50p", "L50p")] {
        let with = |other: Leg| [&long_box[..], &[european(leg(same)), european(other)]].concat();
        assert_margin(&with(minis(10, other)), Ok(0));
        assert_margin(&with(leg(other)), refusal(10, 2, 5));
    }
    // Mixed sizes within the box's own kinds are a box still.
    let mini_box = ["L50c", "S60c", "L60p", "S50p"].map(|notation| european(minis(10, notation)));
    assert_margin(&[&long_box[..], &mini_box].concat(), Ok(1_000_000));
}
