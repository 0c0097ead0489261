//! European long boxes made on purpose, and spreads that are nearly one.

use usm::{leg_table, Claim, Leg, OptionType, Sheet, Side, Style, GREATEST_STRIKE, MOST_CONTRACTS};
use usm_kit::accounts::in_group;
use usm_kit::model;

use crate::random::Random;
use crate::spreads;

/// One to three groups, each a box or nearly one, and claims that may be those of another figure.
pub fn sheet(random: &mut Random) -> Sheet {
    let mut placement = Vec::new();
    let groups = 1 + random.below(3) as u16;
    for group in 1..=groups {
        placement.extend(near(random).into_iter().map(|leg| in_group(group, leg)));
    }
    if random.one_in(2) {
        random.shuffle(&mut placement);
    }
    let holdings = placement.iter().map(|leg| in_group(0, *leg)).collect();
    let claims =
        (1..=groups).map(|group| Claim { group, margin: claimed(random, &placement, group) }).collect();
    Sheet { holdings, placement, claims, ..Sheet::default() }
}

/// Mostly the margin; at times what someone would claim who rounds, halves or recognises a box otherwise.
fn claimed(random: &mut Random, placement: &[Leg], group: u16) -> i64 {
    let margin = model::margin(&leg_table(placement), u64::from(group)).unwrap_or(0);
    match random.below(16) {
        0 => 0,
        1 => margin * 2,
        2 => margin / 2,
        3 => (margin - 1).max(0),
        _ => margin,
    }
}

/// A European long box, half of the time with something about it that may make it none.
pub fn near(random: &mut Random) -> Vec<Leg> {
    let [low, high] = strikes(random);
    let base = Leg { style: Style::European, ..spreads::terms(random) };
    let units = units(random);
    let kinds = [
        Leg { side: Side::Long, option_type: OptionType::Call, strike: low, ..base },
        Leg { side: Side::Short, option_type: OptionType::Call, strike: high, ..base },
        Leg { side: Side::Long, option_type: OptionType::Put, strike: high, ..base },
        Leg { side: Side::Short, option_type: OptionType::Put, strike: low, ..base },
    ];
    let mut legs: Vec<Leg> = kinds.iter().flat_map(|kind| pieces(random, *kind, units)).collect();
    if random.one_in(2) {
        spoil(random, &mut legs, [low, high]);
    }
    random.shuffle(&mut legs);
    legs
}

/// Two strikes; often with an odd difference.
fn strikes(random: &mut Random) -> [u32; 2] {
    match random.below(4) {
        0 => [50_000, 60_000],
        1 => [1, GREATEST_STRIKE],
        _ => {
            let low = random.between(2, GREATEST_STRIKE - 5_000);
            [low, low + random.pick(&[1, 2, 3, 999, 1_000, 4_999])]
        }
    }
}

/// Units of each kind; often odd. What pieces of several sizes can make ends at the most contracts.
fn units(random: &mut Random) -> u32 {
    match random.below(4) {
        0 => random.pick(&[1, 2, 3, 7, 15, 99]),
        1 => random.pick(&[100, 1_000, 70_000, MOST_CONTRACTS]),
        _ => random.between(1, MOST_CONTRACTS),
    }
}

/// One kind's units in one to three records, whose unit sizes may differ.
fn pieces(random: &mut Random, kind: Leg, units: u32) -> Vec<Leg> {
    let mut legs = Vec::new();
    let mut rest = units;
    while rest > 0 && legs.len() < 2 && !random.one_in(3) {
        let unit_size: u16 = random.pick(&[1, 7, 10, 100, 1_000]);
        let most = rest / u32::from(unit_size);
        if most > 0 {
            let contracts = if random.one_in(3) { most } else { random.between(1, most) };
            legs.push(Leg { unit_size, contracts, ..kind });
            rest -= contracts * u32::from(unit_size);
        } else {
            break;
        }
    }
    if rest > 0 {
        legs.push(Leg { unit_size: 1, contracts: rest, ..kind });
    }
    legs
}

/// Changes one thing. Most of what comes out is a spread still; the model knows.
fn spoil(random: &mut Random, legs: &mut Vec<Leg>, [low, high]: [u32; 2]) {
    let at = random.below(legs.len());
    let leg = legs[at];
    match random.below(12) {
        0 => legs.iter_mut().for_each(|leg| leg.style = Style::American),
        1 => legs[at].style = Style::American,
        2 => legs.iter_mut().for_each(|leg| leg.side = other(leg.side)),
        3 => legs.push(leg), // units of one kind are more
        4 => legs[at].contracts = random.between(1, MOST_CONTRACTS),
        5 => legs[at].unit_size = random.pick(&[1, 10, 100, 1_000]),
        6 => later_longs(random, legs),
        7 => legs.retain(|leg| leg.option_type == OptionType::Call),
        8 => legs.extend([low + 1, high - 1].map(|strike| Leg { strike, side: Side::Long, ..leg })),
        9 => vertical(random, legs, [low, high]),
        10 => minis(random, legs, leg),
        _ => legs[at].strike = random.pick(&[low, high, high + 1, low - 1]).clamp(1, GREATEST_STRIKE),
    }
}

fn other(side: Side) -> Side {
    match side {
        Side::Long => Side::Short,
        Side::Short => Side::Long,
    }
}

/// Some or all longs expire a day or years later.
fn later_longs(random: &mut Random, legs: &mut [Leg]) {
    let expiry = random.pick(&[20991230, 20991231]);
    let all = random.one_in(2);
    for leg in legs.iter_mut().filter(|leg| leg.side == Side::Long) {
        if all || random.one_in(2) {
            leg.expiry = expiry;
        }
    }
}

/// A long and a short at one strike of the box, with as many units in contracts of two sizes.
fn minis(random: &mut Random, legs: &mut Vec<Leg>, leg: Leg) {
    let contracts = random.between(1, MOST_CONTRACTS / 10);
    let size = random.pick(&[10, 10, 100, 1_000]);
    legs.push(Leg { side: Side::Long, unit_size: 10, contracts: contracts * 10, ..leg });
    legs.push(Leg {
        side: Side::Short,
        unit_size: size,
        contracts: contracts * 100 / u32::from(size),
        ..leg
    });
}

/// One leg too many on each side: more calls or puts at the same strikes, or at a third one.
fn vertical(random: &mut Random, legs: &mut Vec<Leg>, [low, high]: [u32; 2]) {
    let first = legs[0];
    let option_type = random.pick(&[OptionType::Call, OptionType::Put]);
    let (long, short) = match option_type {
        OptionType::Call => (low, high),
        OptionType::Put => (high, low),
    };
    let short = if random.one_in(2) { short } else { (short + 2).min(GREATEST_STRIKE) };
    legs.push(Leg { side: Side::Long, option_type, strike: long, ..first });
    legs.push(Leg { side: Side::Short, option_type, strike: short, ..first });
}
