//! Credit event binaries: numbers at the edges of the circular's rows and columns, past their ranges, and past 32 bits.

mod edges;
pub mod laws;

use std::fmt::Display;

use usm::{ffi, Binary, LongBinary, Refusal, Side};
use usm_kit::both::{Calls, LIBRARY, MODEL};
use usm_kit::model;

use crate::compare::{answer_of, numbers, same};
use crate::random::Random;

/// What one call is given, as the numbers that it is in C: side or paid mark may be none.
#[derive(Clone, Copy, Debug)]
pub struct Numbers {
    pub valuation: u64,
    pub side: u64,
    pub paid: u64,
    pub long: Binary,
    pub short: Binary,
}

/// A date of the century; now and then one where months, leap years or the century end.
fn date(random: &mut Random) -> u64 {
    const ENDS: [u64; 12] = [
        20000101, 20000229, 20010228, 20010301, 20110315, 20120229, 20921231, 20930101, 20960229, 20981231,
        20990228, 20991231,
    ];
    if random.one_in(2) {
        return random.pick(&ENDS);
    }
    // Every month has these days.
    let day = u64::from(random.between(1, 28));
    u64::from(random.between(2000, 2099)) * 10_000 + u64::from(random.between(1, 12)) * 100 + day
}

/// An expiry near the end of a year, near the valuation date itself, or anywhere.
fn expiry(random: &mut Random, valuation: u64) -> u64 {
    let years_on = random.pick(&[0, 0, 1, 1, 3, 3, 7, 7, 8]);
    match random.below(8) {
        0..=2 => valuation + years_on * 10_000,
        3 => valuation + years_on * 10_000 + 1,
        4 => (valuation + years_on * 10_000).saturating_sub(1),
        _ => date(random),
    }
}

fn spread(random: &mut Random) -> u64 {
    const EDGES: [u64; 6] = [0, 100, 300, 500, 700, 100_000];
    let edge = random.pick(&EDGES);
    match random.below(12) {
        0..=3 => edge,
        4..=7 => edge.saturating_sub(1),
        8 => edge + 1,
        _ => u64::from(random.between(0, 1_000)),
    }
}

fn contracts(random: &mut Random) -> u64 {
    let most = random.pick(&[3, 100_000]);
    let any = random.between(1, most);
    u64::from(random.pick(&[1, most, any]))
}

/// A number that no field takes, or that only its lower 32 bits would make a good one.
fn wrong(random: &mut Random, good: u64) -> u64 {
    random.pick(&[0, 100_001, 20110229, 20991232, 21000101, good | 1 << 32, good | 1 << 63, u64::MAX])
}

fn position(random: &mut Random, valuation: u64) -> Binary {
    Binary {
        reference: random.pick(&[0, 7, 7, 7, 7 | 1 << 32, u64::MAX]),
        spread: spread(random),
        expiry: expiry(random, valuation),
        contracts: contracts(random),
    }
}

pub fn any(random: &mut Random) -> Numbers {
    let valuation = date(random);
    let long = position(random, valuation);
    let mut short = position(random, valuation);
    if random.one_in(2) {
        short = Binary { reference: long.reference, expiry: short.expiry.min(long.expiry), ..short };
    }
    let (side, paid) = (random.pick(&[1, 2]), u64::from(!random.one_in(4)));
    let mut numbers = Numbers { valuation, side, paid, long, short };
    for _ in 0..random.pick(&[0, 0, 0, 1, 2]) {
        spoil(random, &mut numbers);
    }
    numbers
}

/// Puts one number out of its range.
fn spoil(random: &mut Random, numbers: &mut Numbers) {
    let Numbers { valuation, side, paid, long, short } = numbers;
    let binary = if random.one_in(2) { long } else { short };
    match random.below(8) {
        0 => *valuation = wrong(random, *valuation),
        1 => *side = random.pick(&[0, 3, 257, *side | 1 << 32, u64::MAX]),
        2 => *paid = random.pick(&[2, 256, *paid | 1 << 32, u64::MAX]),
        3 | 4 => binary.spread = wrong(random, binary.spread),
        5 => binary.expiry = wrong(random, binary.expiry),
        _ => binary.contracts = wrong(random, binary.contracts),
    }
}

fn side_of(number: u64) -> Option<Side> {
    [Side::Long, Side::Short].into_iter().find(|side| *side as u64 == number)
}

fn paid_of(number: u64) -> Option<bool> {
    [false, true].into_iter().find(|paid| u64::from(*paid) == number)
}

/// A side that there is none of is a field out of range, and nothing comes before that.
pub fn margin(case: &dyn Display, [side, spread, valuation, expiry, contracts]: [u64; 5]) -> u64 {
    let given = [side, spread, valuation, expiry, contracts];
    let answer = answer_of(|answer| ffi::binary_margin(given, answer));
    let expected = match side_of(side) {
        Some(side) => model::binary_margin(side, spread, valuation, expiry, contracts),
        None => Err(Refusal::new(4, 0, 0)),
    };
    let expected = numbers(&expected, |margin| [margin as u64, 0, 0]);
    same(&format_args!("{case}: {given:?}"), "usm_binary_margin", answer, expected)
}

/// A paid mark that there is none of is a field of the long out of range, and nothing comes before that.
pub fn pair(case: &dyn Display, given: &Numbers) -> u64 {
    let Numbers { valuation, paid, long, short, .. } = *given;
    let answer = answer_of(|answer| {
        let bought = [long.reference, long.spread, long.expiry, long.contracts, paid];
        let written = [short.reference, short.spread, short.expiry, short.contracts];
        ffi::binary_pair(valuation, bought, written, answer)
    });
    let expected = match paid_of(paid) {
        Some(paid) => model::binary_pair(valuation, LongBinary { binary: long, paid }, short),
        None => Err(Refusal::new(4, 0, 0)),
    };
    let expected = numbers(&expected, |margin| [margin as u64, 0, 0]);
    same(&format_args!("{case}: {given:?}"), "usm_binary_pair", answer, expected)
}

/// The safe wrapper against the model.
pub fn answers_alike(case: &dyn Display, given: &Numbers) {
    let Numbers { valuation, side, paid, long, short } = *given;
    if let (Some(side), Some(paid)) = (side_of(side), paid_of(paid)) {
        let answers = |calls: Calls| {
            let Binary { spread, expiry, contracts, .. } = long;
            let pair = (calls.binary_pair)(valuation, LongBinary { binary: long, paid }, short);
            ((calls.binary_margin)(side, spread, valuation, expiry, contracts), pair)
        };
        assert_eq!(answers(LIBRARY), answers(MODEL), "{case}: {given:?}: wrapper and model differ");
    }
}
