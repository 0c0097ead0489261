//! Days of fills: small worlds in which lots run out and over, and full tables in which rooms do.

use usm::{
    fill_table, leg_table, Action, Fill, Leg, Side, MOST_CONTRACTS, MOST_FILLS, MOST_LEGS, RECORD_BYTES,
};
use usm_kit::accounts::in_group;
use usm_kit::fields::{put, records, ACTION, FILLER};

use crate::random::Random;
use crate::spreads;
use crate::values::BAD_IN_LEGS;

/// A day: the starting table, the fills, and the rooms for result and lists.
pub struct Day {
    pub holdings: Vec<u8>,
    pub fills: Vec<u8>,
    pub result_room: usize,
    pub list_rooms: [usize; 2],
}

pub fn day(random: &mut Random) -> Day {
    let (holdings, fills) = match random.below(10) {
        0..=5 => small_world(random),
        6..=8 => full_table(random),
        _ => garbage(random),
    };
    let (mut holdings, mut fills) = (holdings, fills);
    if random.one_in(8) {
        wrong(random, &mut holdings, &mut fills);
    }
    let count = records(&fills);
    let most = MOST_LEGS * RECORD_BYTES;
    let result_room = if random.one_in(12) { random.room(most) } else { most + random.below(2) * 41 };
    let list_rooms = if random.one_in(8) {
        [random.room(count), random.room(count)]
    } else {
        [count + random.below(3), count + random.below(3)]
    };
    Day { holdings, fills, result_room, list_rooms }
}

/// A few lines, which come up again and again: repeats in the start, closes of too much, sums at the limit.
fn small_world(random: &mut Random) -> (Vec<u8>, Vec<u8>) {
    let lines: Vec<Leg> = (0..1 + random.below(5)).map(|_| line(random)).collect();
    let largest = random.pick(&[1, 2, 3, 40_000, MOST_CONTRACTS]);
    let lot = |random: &mut Random| {
        let side = random.pick(&[Side::Long, Side::Short]);
        // A fill that is marked as paid is refused.
        let paid = random.one_in(20);
        Leg { side, contracts: random.between(1, largest), paid, ..random.pick(&lines) }
    };
    let marked = |random: &mut Random| Leg { paid: random.one_in(3), ..lot(random) };
    let holdings: Vec<Leg> = (0..random.below(7)).map(|_| marked(random)).collect();
    let most = random.pick(&[2, 8, 30]);
    let count = random.below(most);
    let fills: Vec<Fill> = (0..count)
        .map(|_| Fill { action: random.pick(&[Action::Open, Action::Close]), leg: lot(random) })
        .collect();
    (leg_table(&holdings), fill_table(&fills))
}

/// A line like another in all but one field, at times.
fn line(random: &mut Random) -> Leg {
    let [strike, ..] = spreads::strikes(random);
    let leg = in_group(0, Leg { strike, ..spreads::terms(random) });
    if random.one_in(2) {
        leg
    } else {
        let plain = in_group(0, usm_kit::accounts::leg("L60c"));
        match random.below(8) {
            0 => Leg { style: leg.style, ..plain },
            1 => Leg { market: leg.market, ..plain },
            2 => Leg { unit_size: leg.unit_size, ..plain },
            3 => Leg { underlying: leg.underlying, ..plain },
            4 => Leg { strike: leg.strike, ..plain },
            5 => Leg { expiry: leg.expiry, ..plain },
            6 => Leg { settlement: leg.settlement, ..plain },
            _ => Leg { option_type: leg.option_type, ..plain },
        }
    }
}

/// Nearly as many lines as there may be, and fills that end some and begin others: a 257th line, and room that
/// is used again.
fn full_table(random: &mut Random) -> (Vec<u8>, Vec<u8>) {
    let lines = random.pick(&[200, 250, 254, 255, 256]);
    let largest = random.pick(&[1, 1, 2, MOST_CONTRACTS]);
    let at = |random: &mut Random, strike: u32| Leg {
        side: if strike % 3 == 0 { Side::Short } else { Side::Long },
        strike,
        contracts: if largest > 2 { largest } else { random.between(1, largest) },
        ..in_group(0, usm_kit::accounts::leg("L60c"))
    };
    let mut holdings: Vec<Leg> = (1..=lines).map(|strike| at(random, strike)).collect();
    if random.one_in(3) {
        // A repeat in place of a line of its own.
        let last = holdings.len() - 1;
        holdings[last] = holdings[random.below(last)];
    }
    if random.one_in(2) {
        random.shuffle(&mut holdings);
    }
    let count = match random.below(8) {
        0 => MOST_FILLS,
        1 => 1 + random.below(MOST_FILLS),
        _ => 1 + random.below(60),
    };
    let fills: Vec<Fill> = (0..count)
        .map(|_| {
            let strike = random.between(1, lines + 20);
            Fill { action: random.pick(&[Action::Open, Action::Close]), leg: at(random, strike) }
        })
        .collect();
    (leg_table(&holdings), fill_table(&fills))
}

/// Bytes without sense.
fn garbage(random: &mut Random) -> (Vec<u8>, Vec<u8>) {
    let table = |random: &mut Random, most: usize| -> Vec<u8> {
        let greatest = random.pick(&[1, 2, 3, 255]);
        let length = random.below(most * RECORD_BYTES);
        let length = if random.one_in(2) { length } else { length / RECORD_BYTES * RECORD_BYTES };
        (0..length).map(|_| random.between(0, greatest) as u8).collect()
    };
    let holdings = if random.one_in(2) { Vec::new() } else { table(random, 4) };
    (holdings, table(random, 12))
}

/// Something wrong with a table as a whole, or with a record of it.
fn wrong(random: &mut Random, holdings: &mut Vec<u8>, fills: &mut Vec<u8>) {
    match random.below(8) {
        0 => holdings.extend((0..1 + random.below(31)).map(|_| 0)),
        1 => fills.truncate(fills.len().saturating_sub(1 + random.below(31))),
        2 => repeat(holdings, MOST_LEGS + random.below(2)),
        3 => repeat(fills, MOST_FILLS + random.below(2)),
        4 => bad_field(random, holdings),
        5 | 6 => bad_field(random, fills),
        _ => {
            let count = records(fills);
            if count > 0 {
                put(
                    fills,
                    random.below(count),
                    random.pick(&[ACTION, FILLER]),
                    random.pick(&[0, 1, 2, 3, 255]),
                );
            }
        }
    }
}

fn repeat(table: &mut Vec<u8>, count: usize) {
    if let Some(record) = table.get(..RECORD_BYTES).map(<[u8]>::to_vec) {
        while records(table) < count {
            table.extend_from_slice(&record);
        }
    }
}

fn bad_field(random: &mut Random, table: &mut [u8]) {
    if records(table) > 0 {
        let (field, value) = random.pick(&BAD_IN_LEGS);
        put(table, random.below(records(table)), field, value);
    }
}
