//! "Accounts on the bench" and "Errors that look right" of document 01, and what document 02 adds, run against the
//! library and the model alike.

#![forbid(unsafe_code)]

mod bench;
mod binaries;
mod boxes;
mod cash;
mod files;
mod fills;
mod forms;
mod joining;
mod limits;
mod look_right;
mod minis;
mod pointing;
mod salvage;
mod symbols;
mod unplaced;
mod work;

use usm::{leg_table, Accepted, Leg, Origin, Refusal, Sheet, Tables};
use usm_kit::block::LONGEST_FILE;
use usm_kit::both::{Calls, BOTH};

pub fn refusal<T>(number: u64, table: u64, place: u64) -> Result<T, Refusal> {
    Err(Refusal::new(number, table, place))
}

/// The nets of group 1, after a look at the strikes beside them.
pub fn nets(calls: &Calls, legs: &[Leg]) -> Result<Vec<i64>, Refusal> {
    let (mut strikes, mut nets) = (vec![0; legs.len()], vec![0; legs.len()]);
    let rows = (calls.worksheet)(&leg_table(legs), 1, &mut strikes, &mut nets)?;
    assert!(strikes[..rows].windows(2).all(|pair| pair[0] < pair[1]), "{}: strikes ascend", calls.name);
    nets.truncate(rows);
    Ok(nets)
}

/// The margin of group 1 is this, or this refusal, by library and model.
#[track_caller]
pub fn assert_margin(legs: &[Leg], expected: Result<i64, Refusal>) {
    for calls in &BOTH {
        assert_eq!((calls.margin)(&leg_table(legs), 1), expected, "{}", calls.name);
    }
}

/// The verdict on a sheet is this, by library and model.
#[track_caller]
pub fn assert_verdict(sheet: &Sheet, expected: Result<Accepted, Refusal>) {
    let Tables { holdings, placement, claims } = sheet.tables();
    for calls in &BOTH {
        assert_eq!((calls.check_sheet)(&holdings, &placement, &claims), expected, "{}", calls.name);
    }
}

/// The checker prints this line for the sheet's file, in either form, by library and model.
#[track_caller]
pub fn assert_line(sheet: &Sheet, line: &str) {
    let Tables { holdings, placement, claims } = sheet.tables();
    for calls in &BOTH {
        for origin in [Origin::OLD, Origin::new(7)] {
            let mut file = [0; LONGEST_FILE];
            let length =
                (calls.write_file)(&holdings, &placement, &claims, origin, &mut file).expect("a file");
            assert_eq!((calls.file_line)(&file[..length]), format!("{line}\n"), "{}", calls.name);
        }
    }
}
