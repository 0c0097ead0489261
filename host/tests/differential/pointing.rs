//! Groups that break 7, 8, 9, 10 or 13 on purpose (document 02, [14]), with records of other groups and unplaced
//! ones among their legs.

use usm::{Leg, Market, Sheet, Side, Style, MOST_LEGS};
use usm_kit::accounts::in_group;

use crate::random::Random;
use crate::sheets;

/// The numbers whose place is a leg.
pub const NUMBERS: [u64; 5] = [7, 8, 9, 10, 13];

/// A sheet that is good but for a group with one to three faults, and at times another group with one; and the
/// number of that first group.
pub fn sheet(random: &mut Random) -> (Sheet, u16) {
    let mut sheet = sheets::valid(random);
    while sheet.claims.is_empty() {
        sheet = sheets::valid(random);
    }
    let any_group = |random: &mut Random| 1 + random.below(sheet.claims.len()) as u16;
    let group = any_group(random);
    let placement = &mut sheet.placement;
    if random.one_in(3) {
        repeat(placement, group);
    }
    for _ in 0..random.pick(&[1, 1, 1, 2, 3]) {
        spoil(random, placement, group);
    }
    if random.one_in(6) {
        let another = any_group(random);
        spoil(random, placement, another);
    }
    put_strangers(random, placement, group);
    if random.one_in(2) {
        random.shuffle(placement);
    }
    (sheet, group)
}

fn places_of(placement: &[Leg], group: u16) -> Vec<usize> {
    (0..placement.len()).filter(|&at| placement[at].group == group).collect()
}

/// Each leg of the group stands twice: its units balance as before.
fn repeat(placement: &mut Vec<Leg>, group: u16) {
    let legs: Vec<Leg> = placement.iter().copied().filter(|leg| leg.group == group).collect();
    if placement.len() + legs.len() <= MOST_LEGS {
        placement.extend(legs);
    }
}

/// Breaks one of the five. 13 leaves the units as they are, so that it is not hidden by 11 and 12.
fn spoil(random: &mut Random, placement: &mut [Leg], group: u16) {
    let places = places_of(placement, group);
    let leg = &mut placement[random.pick(&places)];
    match random.below(6) {
        0 => leg.underlying = (leg.underlying ^ random.pick(&[2, 0x0100, 0x8000_0000])).max(1),
        1 if leg.style == Style::American => leg.style = Style::European,
        1 => leg.style = Style::American,
        2 if leg.market == Market::Listed => leg.market = Market::Otc,
        2 => leg.market = Market::Listed,
        3 => {
            let taken = *leg;
            double(random, placement, &places, taken);
        }
        4 => leg.expiry = if leg.side == Side::Long { 20000101 } else { 20991231 },
        _ => {
            for at in places {
                placement[at].expiry = random.pick(&[20110521, 20110521, 20110618, 20120229]);
            }
        }
    }
}

/// A leg of the other side takes over the series of this one.
fn double(random: &mut Random, placement: &mut [Leg], places: &[usize], taken: Leg) {
    let across: Vec<usize> = places.iter().copied().filter(|&at| placement[at].side != taken.side).collect();
    let Leg { option_type, strike, expiry, unit_size, .. } = taken;
    if !across.is_empty() {
        let leg = &mut placement[random.pick(&across)];
        *leg = Leg { option_type, strike, expiry, unit_size, ..*leg };
    }
}

/// Unplaced records that would break the group's conditions sooner, if they were legs of it.
fn put_strangers(random: &mut Random, placement: &mut Vec<Leg>, group: u16) {
    let places = places_of(placement, group);
    let like = placement[random.pick(&places)];
    for _ in 0..random.below(4).min(MOST_LEGS - placement.len()) {
        let stranger = Leg {
            side: random.pick(&[Side::Long, Side::Short]),
            underlying: random.pick(&[like.underlying, 9]),
            expiry: random.pick(&[like.expiry, 20000101, 20991231]),
            ..in_group(0, like)
        };
        placement.insert(random.below(placement.len() + 1), stranger);
    }
}
