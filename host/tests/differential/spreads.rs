//! Spreads of all sizes and shapes, and what the legs of one share.

use usm::{
    is_expiry, Leg, Market, OptionType, Settlement, Side, Style, GREATEST_STRIKE, GREATEST_UNIT_SIZE,
    MOST_CONTRACTS, MOST_LEGS,
};

use crate::random::Random;

/// One spread, in group 0 for now.
pub fn any(random: &mut Random) -> Vec<Leg> {
    let base = terms(random);
    let option_type = base.option_type;
    let [a, b, c, d] = strikes(random);
    let long = |option_type, strike| Leg { side: Side::Long, option_type, strike, ..base };
    let short = |option_type, strike| Leg { side: Side::Short, option_type, strike, ..base };
    let twice = |leg: Leg| Leg { contracts: leg.contracts * 2, ..leg };
    let (call, put) = (OptionType::Call, OptionType::Put);
    let mut legs = match random.below(9) {
        0 => vec![long(option_type, a), short(option_type, c)],
        1 => vec![long(option_type, b), short(option_type, a)],
        2 => vec![long(option_type, a), twice(short(option_type, b)), long(option_type, c)],
        3 => vec![short(option_type, a), twice(long(option_type, c)), short(option_type, d)],
        4 => vec![long(put, a), short(put, b), short(call, c), long(call, d)],
        5 => vec![long(call, a), short(call, b), long(put, b), short(put, a)],
        6 => vec![short(call, a), long(call, b), short(put, b), long(put, a)],
        7 => ten_small_for_one_large(random, base, a, b),
        _ => ragged(random, base),
    };
    if random.one_in(3) {
        // A calendar: the longs outlive the shorts; then one strike may serve both.
        let later = expiry_from(random, base.expiry);
        for leg in legs.iter_mut().filter(|leg| leg.side == Side::Long) {
            leg.expiry = later;
        }
        if later > base.expiry && random.one_in(2) && legs.len() == 2 {
            legs[1].strike = legs[0].strike;
        }
    }
    if random.one_in(6) {
        // A group may mix settlements.
        legs.iter_mut().for_each(|leg| leg.settlement = settlement(random));
    }
    legs
}

/// What the legs of a group share; small numbers at times, the limits at others.
pub fn terms(random: &mut Random) -> Leg {
    Leg {
        group: 0,
        side: Side::Long,
        option_type: random.pick(&[OptionType::Call, OptionType::Put]),
        style: random.pick(&[Style::American, Style::American, Style::European]),
        market: random.pick(&[Market::Listed, Market::Listed, Market::Otc]),
        unit_size: random.pick(&[1, 10, 100, 100, 100, 7, 999, GREATEST_UNIT_SIZE]),
        underlying: random.pick(&[1, 2, 3, 7, 0x0100, 0x0101_0000, u32::MAX]),
        strike: 1,
        expiry: expiry_from(random, 20000101),
        contracts: match random.below(4) {
            0 => 1,
            1 => random.between(1, 12),
            2 => random.between(1, MOST_CONTRACTS / 2),
            _ => MOST_CONTRACTS / 2,
        },
        settlement: settlement(random),
        paid: random.one_in(4),
    }
}

fn settlement(random: &mut Random) -> Settlement {
    random.pick(&[Settlement::NotStated, Settlement::NotStated, Settlement::Cash, Settlement::Physical])
}

/// Four strikes, ascending and distinct.
pub fn strikes(random: &mut Random) -> [u32; 4] {
    match random.below(3) {
        0 => [50_000, 60_000, 65_000, 70_000],
        1 => [1, 2, GREATEST_STRIKE - 1, GREATEST_STRIKE],
        _ => {
            let first = random.between(1, GREATEST_STRIKE - 3_000);
            let second = first + random.between(1, 1_000);
            let third = second + random.between(1, 1_000);
            [first, second, third, third + random.between(1, 1_000)]
        }
    }
}

/// A real date from the given one on.
fn expiry_from(random: &mut Random, first: u32) -> u32 {
    for _ in 0..8 {
        let date = match random.below(3) {
            0 => random.pick(&[20000101, 20000229, 20110521, 20110618, 20120229, 20991231]),
            _ => random.between(2000, 2099) * 10_000 + random.between(1, 12) * 100 + random.between(1, 31),
        };
        if date >= first && is_expiry(date) {
            return date;
        }
    }
    first
}

/// Units balance while contracts do not (P7). At times both stand at one strike, and unit sizes alone part
/// the two series.
fn ten_small_for_one_large(random: &mut Random, base: Leg, low: u32, high: u32) -> Vec<Leg> {
    let contracts = random.between(1, MOST_CONTRACTS / 10);
    let high = if random.one_in(2) { low } else { high };
    vec![
        Leg { side: Side::Long, unit_size: 10, contracts: contracts * 10, strike: high, ..base },
        Leg { side: Side::Short, unit_size: 100, contracts, strike: low, ..base },
    ]
}

/// Many legs: the same units long and short, cut into pieces at many strikes.
fn ragged(random: &mut Random, base: Leg) -> Vec<Leg> {
    let mut legs = Vec::new();
    for option_type in [OptionType::Call, OptionType::Put] {
        for _ in 0..random.below(5) {
            let contracts = random.between(1, MOST_CONTRACTS);
            // Longs stand at odd strikes and shorts at even ones, so no series is doubled.
            let long = random.between(0, 49_999_998) * 2 + 1;
            let short = random.between(1, 49_999_999) * 2;
            legs.push(Leg { side: Side::Long, option_type, contracts, strike: long, ..base });
            legs.push(Leg { side: Side::Short, option_type, contracts, strike: short, ..base });
        }
    }
    if legs.is_empty() {
        let [a, b, ..] = strikes(random);
        legs.push(Leg { side: Side::Long, strike: a, ..base });
        legs.push(Leg { side: Side::Short, strike: b, ..base });
    }
    legs
}

/// One group of as many legs as a table holds, near the greatest amounts.
pub fn giant(random: &mut Random) -> Vec<Leg> {
    let base = Leg { unit_size: GREATEST_UNIT_SIZE, contracts: MOST_CONTRACTS, ..terms(random) };
    let wide = random.one_in(2);
    (0..MOST_LEGS as u32)
        .map(|index| {
            let (low, high) = (index + 1, GREATEST_STRIKE - index);
            let side = if index % 2 == 0 { Side::Short } else { Side::Long };
            let strike = if wide && side == Side::Long { high } else { low };
            Leg { side, strike, ..base }
        })
        .collect()
}
