//! Families of cases: each case has a number, by which it can be tried again.

use std::fmt;

use usm::Reason;

use crate::random::Random;

const CASES: u64 = 100_000;
const SEED: u64 = 1;

/// One case of a family.
pub struct Case {
    family: &'static str,
    seed: u64,
    pub index: u64,
}

impl fmt::Display for Case {
    fn fmt(&self, f: &mut fmt::Formatter<'_>) -> fmt::Result {
        let Case { family, seed, index } = self;
        write!(f, "USM_SEED={seed} USM_ONLY={index}, test {family}")
    }
}

/// How often each refusal number, or 0 for success, was the answer.
#[derive(Default)]
pub struct Tally([u64; Reason::ALL.len() + 1]);

impl Tally {
    pub fn count(&mut self, answer: u64) {
        self.0[answer as usize] += 1;
    }
}

fn number_from(variable: &str) -> Option<u64> {
    let text = std::env::var(variable).ok()?;
    let number = text.parse().unwrap_or_else(|_| panic!("{variable} must be a number, not `{text}`"));
    Some(number)
}

/// Tries a family's share of all cases, at least one, and shows that every wanted answer came up.
pub fn run(
    family: &'static str,
    percent: u64,
    wanted: &[usize],
    one: impl Fn(&Case, &mut Random, &mut Tally),
) {
    let seed = number_from("USM_SEED").unwrap_or(SEED);
    let cases = number_from("USM_CASES").unwrap_or(CASES) * percent / 100;
    let only = number_from("USM_ONLY");
    let indices = only.map_or(0..cases, |index| index..index.saturating_add(1));
    // Each family has random numbers of its own.
    let family_seed =
        family.bytes().fold(seed, |seed, byte| Random::from_seed(seed ^ u64::from(byte)).next());
    let (mut tally, mut tried) = (Tally::default(), 0);
    for index in indices {
        let mut random = Random::from_seed(family_seed.wrapping_add(index));
        one(&Case { family, seed, index }, &mut random, &mut tally);
        tried += 1;
    }
    assert!(tried > 0, "{family}: no case was tried; its share of USM_CASES is {percent} in a hundred");
    println!("{family}: {tried} cases; answers by refusal number, 0 first: {:?}", tally.0);
    // A small run cannot meet every rare answer.
    if cases >= CASES * percent / 100 && only.is_none() {
        for &number in wanted {
            assert!(tally.0[number] > 0, "{family}: no case was answered with {number}");
        }
    }
}
