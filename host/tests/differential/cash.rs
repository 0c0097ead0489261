//! Groups that are fit for a cash account made on purpose, and some that one thing keeps from it.

use usm::{leg_table, Claim, Leg, Settlement, Sheet, Style};
use usm_kit::accounts::in_group;
use usm_kit::model;

use crate::random::Random;
use crate::{boxes, spreads};

/// One to three groups, with their margins claimed.
pub fn sheet(random: &mut Random) -> Sheet {
    let mut placement = Vec::new();
    let groups = 1 + random.below(3) as u16;
    for group in 1..=groups {
        placement.extend(nearly_fit(random).into_iter().map(|leg| in_group(group, leg)));
    }
    if random.one_in(2) {
        random.shuffle(&mut placement);
    }
    let holdings = placement.iter().map(|leg| in_group(0, *leg)).collect();
    let margin = |group: u16| model::margin(&leg_table(&placement), u64::from(group)).unwrap_or(0);
    let claims = (1..=groups).map(|group| Claim { group, margin: margin(group) }).collect();
    Sheet { holdings, placement, claims, ..Sheet::default() }
}

/// A spread or a long box, all European, all cash, of one expiry; half of the time one leg says otherwise.
fn nearly_fit(random: &mut Random) -> Vec<Leg> {
    let mut legs = if random.one_in(4) { boxes::near(random) } else { spreads::any(random) };
    let expiry = legs[0].expiry;
    for leg in &mut legs {
        *leg = Leg { style: Style::European, settlement: Settlement::Cash, expiry, ..*leg };
    }
    let at = random.below(legs.len());
    match random.below(12) {
        0 => legs[at].style = Style::American,
        1 => legs.iter_mut().for_each(|leg| leg.style = Style::American),
        2 => legs[at].settlement = Settlement::NotStated,
        3 => legs[at].settlement = Settlement::Physical,
        4 => legs[at].expiry = random.pick(&[20000101, 20991231]),
        5 => {
            let later = random.pick(&[20991230, 20991231]);
            legs.iter_mut().filter(|leg| leg.side as u8 == 1).for_each(|leg| leg.expiry = later);
        }
        _ => {}
    }
    legs
}
