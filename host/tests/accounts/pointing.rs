//! Point at the leg (document 02, [14]): rows beside P9 and P11 in which the record is neither the number of the group
//! nor the leg's place among the group's legs.

use usm::{leg_table, Leg, Market, Style};
use usm_kit::accounts::{in_group, leg, paid, placed, times};
use usm_kit::both::BOTH;

use crate::{assert_line, assert_verdict, refusal};

/// These legs as group 2, the first as record 2 and the others from record 4 on, with a vertical as group 1 and an
/// unplaced long among them.
fn in_group_2(legs: &[Leg]) -> Vec<Leg> {
    let mut placement: Vec<Leg> = legs.iter().map(|leg| in_group(2, *leg)).collect();
    placement.splice(1..1, [leg("S50c")]);
    placement.splice(0..0, [leg("L60c"), paid(leg("L90p"))]);
    placement
}

/// Every call that judges group 2 gives this refusal, by library and model.
#[track_caller]
fn assert_refused(legs: &[Leg], number: u64, place: u64) {
    let placement = in_group_2(legs);
    let table = leg_table(&placement);
    for calls in &BOTH {
        assert_eq!((calls.margin)(&table, 2), refusal(number, 2, place), "{}", calls.name);
        assert_eq!((calls.cash)(&table, 2), refusal(number, 2, place), "{}", calls.name);
        assert_eq!((calls.margins)(&table, 2, &mut [0; 2]), refusal(number, 2, place), "{}", calls.name);
        let worksheet = (calls.worksheet)(&table, 2, &mut [0; 9], &mut [0; 9]);
        assert_eq!(worksheet, refusal(number, 2, place), "{}", calls.name);
    }
    let sheet = placed(&placement, &[1_000_000, 0]);
    assert_verdict(&sheet, refusal(number, 2, place));
    assert_line(&sheet, &format!("REFUSE {number} 2 {place}"));
}

fn expiring(expiry: u32, notation: &str) -> Leg {
    Leg { expiry, ..leg(notation) }
}

#[test]
fn beside_p9_the_leg_is_named_with_which_a_short_outlives_a_long() {
    let (long, short) = (expiring(20100522, "L70c"), leg("S60c"));
    assert_refused(&[long, short], 13, 4);
    assert_refused(&[short, long], 13, 4);
    // The latest short so far against the earliest long so far, whichever comes last.
    let late = expiring(20110618, "L70c");
    assert_refused(&[times(2, "S60c"), late, long], 13, 5);
    assert_refused(&[late, long, times(2, "S60c")], 13, 5);
    assert_refused(&[short, late, long, expiring(20110716, "S50c")], 13, 5);
    // A put stands for its expiry as well as a call, and an equal leg behind it for nothing.
    assert_refused(&[short, late, expiring(20110416, "L50p"), expiring(20110416, "S40p")], 13, 5);
    assert_refused(&[short, long, short, long], 13, 4);
}

#[test]
fn beside_p11_the_later_leg_of_the_first_completed_pair_is_named() {
    assert_refused(&[leg("L50c"), leg("S50c")], 10, 4);
    assert_refused(&[leg("S50c"), leg("L50c")], 10, 4);
    // The first leg is of a pair as well, but that is completed later.
    assert_refused(&[leg("L50c"), leg("L60c"), leg("S60c"), leg("S50c")], 10, 5);
    assert_refused(&[leg("L50c"), leg("L50c"), leg("S50c"), leg("S50c")], 10, 5);
    assert_refused(&[leg("L50c"), leg("S60c"), leg("L50p"), leg("S60p"), leg("S50c")], 10, 7);
}

/// A leg of this notation that goes with no other.
type Odd = fn(&str) -> Leg;

#[test]
fn the_first_leg_that_differs_is_named() {
    let others: [(u64, Odd); 3] = [
        (7, |notation| Leg { underlying: 8, ..leg(notation) }),
        (8, |notation| Leg { style: Style::European, ..leg(notation) }),
        (9, |notation| Leg { market: Market::Otc, ..leg(notation) }),
    ];
    for (number, other) in others {
        assert_refused(&[leg("L60c"), other("S50c")], number, 4);
        assert_refused(&[leg("L60c"), leg("S50c"), other("L60p"), leg("S50p")], number, 5);
        assert_refused(&[leg("L60c"), leg("S50c"), other("L60p"), other("S50p")], number, 5);
        // It differs from the first, though the first is the odd one.
        assert_refused(&[other("L60c"), leg("S50c"), leg("L60p"), leg("S50p")], number, 4);
    }
}

#[test]
fn the_number_is_chosen_before_the_place() {
    let otc = Leg { market: Market::Otc, ..leg("S50c") };
    let of_8 = Leg { underlying: 8, ..leg("L60p") };
    // 10 and 13 are broken with the second leg, 9 with the third and 7 with the fourth.
    let doubled = [leg("L50c"), leg("S50c")];
    let outlived = [expiring(20100522, "L70c"), leg("S60c")];
    for pair in [doubled, outlived] {
        assert_refused(&[pair[0], pair[1], otc, of_8], 7, 6);
        assert_refused(&[pair[0], pair[1], otc], 9, 5);
    }
    // 13 is broken with the second leg, 10 with the fourth.
    assert_refused(&[outlived[0], outlived[1], doubled[0], doubled[1]], 10, 6);
}

#[test]
fn units_and_fitness_for_cash_are_those_of_the_group() {
    let outlived = [expiring(20100522, "L70c"), leg("S60c")];
    assert_refused(&[outlived[0], outlived[1], leg("L70c")], 11, 2);
    assert_refused(&[outlived[0], outlived[1], leg("L70p")], 12, 2);
    let spread = leg_table(&in_group_2(&[leg("L60c"), leg("S50c")]));
    for calls in &BOTH {
        assert_eq!((calls.margin)(&spread, 2), Ok(1_000_000), "{}", calls.name);
        assert_eq!((calls.cash)(&spread, 2), refusal(21, 2, 2), "{}", calls.name);
        assert_eq!((calls.margin)(&spread, 3), refusal(6, 2, 3), "{}", calls.name);
    }
}
