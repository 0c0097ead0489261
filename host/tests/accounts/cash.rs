//! Cash accounts (document 02, [7]): settlement in a line, and the cash that a fit group requires.

use usm::{leg_table, Accepted, Leg, Refusal, Settlement, Style, Table};
use usm_kit::accounts::{in_group, leg, placed, times};
use usm_kit::both::BOTH;

use crate::{assert_margin, assert_verdict, refusal};

/// A leg in the bench's notation, European and stated as cash.
fn fit(notation: &str) -> Leg {
    Leg { style: Style::European, settlement: Settlement::Cash, ..leg(notation) }
}

/// The cash required for group 1, by library and model.
#[track_caller]
fn assert_cash(legs: &[Leg], expected: Result<i64, Refusal>) {
    for calls in &BOTH {
        assert_eq!((calls.cash)(&leg_table(legs), 1), expected, "{}", calls.name);
    }
}

#[test]
fn a_fit_group_requires_its_worst_loss() {
    assert_cash(&["L60c", "S50c"].map(fit), Ok(1_000_000));
    assert_cash(&["L50p", "S60p", "S65c", "L70c"].map(fit), Ok(1_000_000));
    assert_cash(&[fit("L50c"), Leg { contracts: 2, ..fit("S60c") }, fit("L70c")], Ok(0));
    // OTC options are as good as listed ones.
    assert_cash(
        &["L60c", "S50c"].map(|notation| Leg { market: usm::Market::Otc, ..fit(notation) }),
        Ok(1_000_000),
    );
}

#[test]
fn a_long_box_requires_nothing_and_a_short_box_all() {
    let long_box = ["L50c", "S60c", "L60p", "S50p"].map(fit);
    assert_margin(&long_box, Ok(500_000));
    assert_cash(&long_box, Ok(0));
    let short_box = ["S50c", "L60c", "S60p", "L50p"].map(fit);
    assert_margin(&short_box, Ok(1_000_000));
    assert_cash(&short_box, Ok(1_000_000));
}

#[test]
fn what_is_not_fit_is_21() {
    let [long, short] = ["L60c", "S50c"].map(fit);
    let american = |leg: Leg| Leg { style: Style::American, ..leg };
    let settled = |settlement, leg: Leg| Leg { settlement, ..leg };
    assert_cash(&[american(long), american(short)], refusal(21, 2, 1));
    for settlement in [Settlement::NotStated, Settlement::Physical] {
        assert_cash(&[settled(settlement, long), short], refusal(21, 2, 1));
        assert_cash(&[long, settled(settlement, short)], refusal(21, 2, 1));
        assert_cash(&[settled(settlement, long), settled(settlement, short)], refusal(21, 2, 1));
    }
    // A calendar is a spread, and has two expiries.
    assert_margin(&[Leg { expiry: 20110618, ..long }, short], Ok(1_000_000));
    assert_cash(&[Leg { expiry: 20110618, ..long }, short], refusal(21, 2, 1));
}

#[test]
fn twenty_one_comes_after_1_4_and_6_to_13() {
    let unfit = leg("L60c");
    assert_cash(&[unfit], refusal(11, 2, 1));
    assert_cash(&[unfit, fit("S50c")], refusal(8, 2, 1)); // two styles
    assert_cash(&[unfit, leg("S60c")], refusal(10, 2, 1));
    assert_cash(&[leg("L60c"), Leg { expiry: 20110618, ..leg("S50c") }], refusal(13, 2, 1));
    let table = leg_table(&[leg("L60c"), leg("S50c"), Leg { strike: 0, ..leg("L90c") }]);
    for calls in &BOTH {
        assert_eq!((calls.cash)(&table[1..], 1), refusal(1, 0, 0), "{}", calls.name);
        assert_eq!((calls.cash)(&table, 1), refusal(4, 2, 2), "{}", calls.name);
        for g in [0, 2, 33, u64::MAX] {
            assert_eq!((calls.cash)(&table[..64], g), refusal(6, 2, g), "{}", calls.name);
        }
        assert_eq!((calls.cash)(&table[..64], 1), refusal(21, 2, 1), "{}", calls.name);
    }
}

#[test]
fn only_the_group_that_is_asked_for_must_be_fit() {
    let mut legs = vec![in_group(2, leg("L60c")), in_group(2, leg("S50c")), in_group(0, leg("L90c"))];
    legs.extend(["L60c", "S50c"].map(fit));
    assert_cash(&legs, Ok(1_000_000));
    for calls in &BOTH {
        assert_eq!((calls.cash)(&leg_table(&legs), 2), refusal(21, 2, 2), "{}", calls.name);
    }
}

#[test]
fn settlement_is_no_part_of_a_series() {
    // One series, both long and short, though settled otherwise.
    assert_margin(&[fit("L50c"), Leg { settlement: Settlement::Physical, ..fit("S50c") }], refusal(10, 2, 1));
}

#[test]
fn a_group_may_mix_settlements_and_lines_may_not() {
    let mixed = [
        leg("L60c"),
        Leg { settlement: Settlement::Cash, ..times(2, "S50c") },
        Leg { settlement: Settlement::Physical, ..leg("L60c") },
    ];
    let sheet = placed(&mixed, &[2_000_000]);
    assert_verdict(&sheet, Ok(Accepted { groups: 1, total: 2_000_000, work: 6 }));
    // The two longs are two lines: one may not stand for the other.
    let mut one_line = sheet.clone();
    one_line.holdings[0] = in_group(0, times(2, "L60c"));
    one_line.holdings.truncate(2);
    assert_verdict(&one_line, refusal(14, 1, 0));
    let mut not_stated = sheet;
    not_stated.holdings[1].settlement = Settlement::NotStated;
    assert_verdict(&not_stated, refusal(14, 1, 1));
}

#[test]
fn settlement_is_0_to_2() {
    for calls in &BOTH {
        for (byte, expected) in
            [(0, Ok(1)), (1, Ok(1)), (2, Ok(1)), (3, refusal(4, 2, 0)), (255, refusal(4, 2, 0))]
        {
            let mut table = leg_table(&[leg("L60c")]);
            table[24] = byte;
            assert_eq!((calls.check_table)(Table::Placement, &table), expected, "{}: {byte}", calls.name);
        }
    }
}
