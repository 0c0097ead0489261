//! Tables of roots, lists and holdings that fit together (document 02, [9]), made on purpose.

pub mod damage;
mod each;

use usm::{
    leg_table, padded_root, root_table, Leg, Market, OptionType, Root, Settlement, Side, Style, LONGEST_LIST,
    MOST_CONTRACTS, MOST_LINES, MOST_ROOTS, RECORD_BYTES,
};
use usm_kit::accounts::in_group;
use usm_kit::model;

use crate::random::Random;

/// Roots, and a list and holdings that say the same.
#[derive(Clone)]
pub struct World {
    pub roots: Vec<u8>,
    pub list: Vec<u8>,
    pub holdings: Vec<u8>,
}

impl World {
    fn of(roots: &[Root], legs: &[Leg]) -> World {
        let (roots, holdings) = (root_table(roots), leg_table(legs));
        World { list: list_of(&roots, &holdings), roots, holdings }
    }
}

/// The lines of these records, of which there may be more than a list has.
fn list_of(roots: &[u8], holdings: &[u8]) -> Vec<u8> {
    let lists = holdings.chunks(MOST_LINES * RECORD_BYTES).map(|records| {
        let mut list = vec![0; LONGEST_LIST];
        let length = model::export(roots, records, &mut list).expect("good records");
        list.truncate(length);
        list
    });
    lists.collect::<Vec<_>>().concat()
}

pub fn world(random: &mut Random) -> World {
    let roots = roots(random);
    let count = match random.below(20) {
        0 => 0,
        1 => 1,
        2 => MOST_LINES,
        3 => MOST_LINES + 1,
        4 => MOST_LINES - 6 + random.below(60),
        _ => random.below(12),
    };
    let legs: Vec<Leg> = (0..count).map(|_| leg(random, &roots)).collect();
    World::of(&roots, &legs)
}

/// Roots of which no two share their name or their terms.
fn roots(random: &mut Random) -> Vec<Root> {
    let count = match random.below(24) {
        0 => MOST_ROOTS,
        1 => MOST_ROOTS - random.below(3),
        2 => 1 + random.below(MOST_ROOTS),
        3 => 1,
        _ => 1 + random.below(12),
    };
    let mut roots: Vec<Root> = Vec::new();
    while roots.len() < count {
        let new = Root { name: name(random), ..terms(random) };
        let differ = |other: &Root| other.name != new.name && Root { name: new.name, ..*other } != new;
        if roots.iter().all(differ) {
            roots.push(new);
        }
    }
    roots
}

/// Half of them of few letters, so that one is often the beginning of another.
fn name(random: &mut Random) -> [u8; 6] {
    let letters = random.pick(&["AB1", "ABCDEFGHIJKLMNOPQRSTUVWXYZ0123456789"]).as_bytes();
    let first = if random.one_in(2) { b'A' } else { b'A' + random.below(26) as u8 };
    let rest = (0..random.below(6)).map(|_| random.pick(letters));
    let name: Vec<u8> = std::iter::once(first).chain(rest).collect();
    padded_root(std::str::from_utf8(&name).expect("letters and digits")).expect("a name")
}

/// Terms that are often alike in all but one.
fn terms(random: &mut Random) -> Root {
    let plain = random.one_in(2);
    Root {
        style: random.pick(&[Style::American, Style::European]),
        market: random.pick(&[Market::Listed, Market::Otc]),
        unit_size: if plain { 100 } else { random.pick(&[1, 10, 255, 256, 999, 1_000]) },
        settlement: random.pick(&[Settlement::NotStated, Settlement::Cash, Settlement::Physical]),
        underlying: if plain {
            random.pick(&[1, 7, 255, 256, 7 << 24, u32::MAX])
        } else {
            1 + random.next() as u32 / 2
        },
        ..usm_kit::accounts::root("A")
    }
}

fn leg(random: &mut Random, roots: &[Root]) -> Leg {
    let Root { style, market, unit_size, settlement, underlying, .. } = random.pick(roots);
    let (digits, near) = (random.between(0, 5), random.between(0, 2));
    Leg {
        side: random.pick(&[Side::Long, Side::Short]),
        option_type: random.pick(&[OptionType::Call, OptionType::Put]),
        style,
        market,
        unit_size,
        settlement,
        underlying,
        strike: match random.below(4) {
            0 => random.pick(&[1, 9, 10, 99_999_999, 10_000_000, 9_999_999]),
            _ => random.between(1, 99_999_999),
        },
        expiry: expiry(random),
        contracts: match random.below(3) {
            0 => random.between(1, MOST_CONTRACTS),
            _ => (10_u32.pow(digits) + near).saturating_sub(1).clamp(1, MOST_CONTRACTS),
        },
        ..in_group(0, usm_kit::accounts::leg("L60c"))
    }
}

fn expiry(random: &mut Random) -> u32 {
    match random.below(4) {
        0 => random.pick(&[20000101, 20000229, 20120229, 20110131, 20110430, 20991231]),
        _ => random.between(2000, 2099) * 10_000 + random.between(1, 12) * 100 + random.between(1, 28),
    }
}
