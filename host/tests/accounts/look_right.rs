//! "Errors that look right": each test fails for a program that makes the error.

use usm::{Accepted, Leg, Market, Settlement, Sheet, Style};
use usm_kit::accounts::{in_group, leg, paid, placed, times};

use crate::{assert_margin, assert_verdict, refusal};

#[test]
fn contracts_are_not_balanced_over_the_whole_group() {
    let puts_for_calls = [times(2, "S60c"), leg("L70c"), leg("L50p")];
    assert_verdict(&placed(&puts_for_calls, &[1_000_000]), refusal(11, 2, 1));
    // Calls are looked at before puts.
    let calls_for_puts = [times(2, "S50p"), leg("L40p"), leg("L60c")];
    assert_verdict(&placed(&calls_for_puts, &[1_000_000]), refusal(11, 2, 1));
    // Contracts balance, units do not.
    let contracts_only = [Leg { unit_size: 10, ..leg("L60p") }, leg("S50p")];
    assert_verdict(&placed(&contracts_only, &[0]), refusal(12, 2, 1));
}

#[test]
fn the_search_for_the_worst_net_starts_from_zero() {
    let long_box = [leg("L50c"), leg("S60c"), leg("L60p"), leg("S50p")];
    assert_margin(&long_box, Ok(0));
    assert_verdict(&placed(&long_box, &[0]), Ok(Accepted { groups: 1, total: 0, work: 8 }));
}

#[test]
fn all_strikes_are_looked_at_not_the_short_ones_only() {
    let vertical = [leg("L60c"), leg("S50c")];
    assert_margin(&vertical, Ok(1_000_000));
    assert_verdict(&placed(&vertical, &[0]), refusal(16, 3, 1));
}

#[test]
fn a_short_is_held_against_the_earliest_long() {
    let early = |notation| Leg { expiry: 20110416, ..leg(notation) };
    let late = Leg { expiry: 20110618, ..leg("L70c") };
    assert_margin(&[times(2, "S60c"), late, early("L70c")], refusal(13, 2, 2));
    assert_margin(&[times(2, "S60c"), early("L70c"), late], refusal(13, 2, 1));
    // A put that expires early counts against a short call, too.
    assert_margin(&[leg("S60c"), late, early("L50p"), early("S40p")], refusal(13, 2, 2));
    assert_margin(&[leg("S60c"), late], Ok(1_000_000));
}

#[test]
fn holdings_are_matched_by_line_not_by_series() {
    let accepted = placed(&[leg("S50c"), leg("L60c")], &[1_000_000]);
    assert_verdict(&accepted, Ok(Accepted { groups: 1, total: 1_000_000, work: 4 }));
    for change in [
        |held: &mut Leg| held.style = Style::European,
        |held: &mut Leg| held.market = Market::Otc,
        |held: &mut Leg| held.unit_size = 10,
        |held: &mut Leg| held.underlying = 8,
        |held: &mut Leg| held.settlement = Settlement::Cash,
    ] {
        let mut sheet = accepted.clone();
        change(&mut sheet.holdings[1]);
        assert_verdict(&sheet, refusal(14, 1, 1));
    }
    // What only the placement shows is named there.
    let extra = [leg("S50c"), leg("L60c"), in_group(0, leg("L90c"))];
    let unheld = Sheet { holdings: accepted.holdings, ..placed(&extra, &[1_000_000]) };
    assert_verdict(&unheld, refusal(14, 2, 2));
}

#[test]
fn split_lines_are_ordinary() {
    let placement = [
        times(3, "L60c"),
        times(1, "S50c"),
        times(2, "S50c"),
        in_group(2, times(2, "S50c")),
        in_group(2, times(2, "L60c")),
    ];
    let held = [times(4, "S50c"), times(5, "L60c"), times(1, "S50c")].map(|leg| in_group(0, leg));
    let sheet = Sheet { holdings: held.to_vec(), ..placed(&placement, &[3_000_000, 2_000_000]) };
    assert_verdict(&sheet, Ok(Accepted { groups: 2, total: 5_000_000, work: 6 + 4 }));
}

#[test]
fn an_unplaced_short_is_refused_though_an_unplaced_long_is_free() {
    let with_unplaced = |notation| placed(&[leg("L60c"), leg("S50c"), paid(leg(notation))], &[1_000_000]);
    assert_verdict(&with_unplaced("S50p"), refusal(15, 2, 2));
    assert_verdict(&with_unplaced("L50p"), Ok(Accepted { groups: 1, total: 1_000_000, work: 4 }));
}

#[test]
fn every_group_is_judged_not_the_first_only() {
    let second = [
        (vec![leg("L60p"), Leg { underlying: 8, ..leg("S50p") }], refusal(7, 2, 3)),
        (vec![leg("L60p"), times(2, "S50p")], refusal(12, 2, 2)),
        (vec![leg("L50p"), leg("S60p")], refusal(16, 3, 2)),
        (vec![], refusal(6, 2, 2)),
    ];
    for (legs, expected) in second {
        let mut placement = vec![leg("L60c"), leg("S50c")];
        placement.extend(legs.into_iter().map(|leg| in_group(2, leg)));
        assert_verdict(&placed(&placement, &[1_000_000, 0]), expected);
    }
}
