//! How much work a sheet may cause (document 02, [12]): intrinsic values, counted from the placement.

use usm::{ffi, Leg, Sheet, Side, Style, Tables, MOST_LEGS, MOST_WORK};
use usm_kit::accounts::{fullest, in_group, leg, paid, placed, times};
use usm_kit::both::BOTH;

/// The work of an accepted sheet, by library and model, as tables and as a file.
#[track_caller]
fn assert_work(sheet: &Sheet, expected: u64) {
    let Tables { holdings, placement, claims } = sheet.tables();
    for calls in &BOTH {
        let accepted = (calls.check_sheet)(&holdings, &placement, &claims).expect(calls.name);
        assert_eq!(accepted.work, expected, "{}", calls.name);
        let file = sheet.to_file().expect("a file");
        assert_eq!((calls.check_file)(&file), Ok(accepted), "{}", calls.name);
    }
}

#[test]
fn every_leg_is_worked_out_at_every_distinct_strike_of_its_group() {
    let butterfly = [leg("L50c"), times(2, "S60c"), leg("L70c")];
    assert_work(&placed(&butterfly, &[0]), 9);
    // Two records of one strike are two legs, and a put at a call's strike brings no other price.
    let repeated = [leg("L50c"), leg("S60c"), leg("S60c"), leg("L70c"), leg("L60p"), leg("S50p")];
    assert_work(&placed(&repeated, &[0]), 6 * 3);
    assert_work(&fullest(), 32 * 8 * 8);
}

#[test]
fn groups_are_counted_apart_and_what_is_not_placed_not_at_all() {
    let vertical = [leg("L60c"), leg("S50c")];
    assert_work(&placed(&vertical, &[1_000_000]), 4);
    let twice = [&vertical[..], &vertical.map(|leg| in_group(2, leg))].concat();
    assert_work(&placed(&twice, &[1_000_000, 1_000_000]), 4 + 4);
    let beside = [&vertical[..], &[paid(leg("L90c")), paid(leg("L70p"))]].concat();
    assert_work(&placed(&beside, &[1_000_000]), 4);
    assert_work(&placed(&[paid(leg("L90c"))], &[]), 0);
}

#[test]
fn european_long_boxes_are_counted_too() {
    let long_box =
        ["L50c", "S60c", "L60p", "S50p"].map(|notation| Leg { style: Style::European, ..leg(notation) });
    assert_work(&placed(&long_box, &[500_000]), 4 * 2);
}

#[test]
fn a_refused_sheet_has_none() {
    let Tables { holdings, placement, claims } = placed(&[leg("L60c"), leg("S50c")], &[999_999]).tables();
    let mut answer = [7; 4];
    ffi::check_sheet(&holdings, &placement, &claims, &mut answer);
    assert_eq!(answer, [16, 3, 1, 0]);
    let file = placed(&[leg("L60c"), leg("S50c")], &[999_999]).to_file().expect("a file");
    ffi::check_file(&file, &mut answer);
    assert_eq!(answer, [16, 3, 1, 0]);
}

/// All the legs that a table takes in one group, no two of one strike.
#[test]
fn the_most_is_reached() {
    let legs: Vec<Leg> = (1..=MOST_LEGS as u32)
        .map(|strike| {
            let side = if strike % 2 == 0 { Side::Long } else { Side::Short };
            Leg { side, strike, ..leg("L50c") }
        })
        .collect();
    // Each short lies one mill below its long: at the top strike 128 pairs lose a mill a unit.
    assert_work(&placed(&legs, &[12_800]), MOST_WORK);
    assert_eq!(MOST_WORK, 65_536);
}
