//! Ordinary sheets that are timed.

use usm::{Claim, Leg, OptionType, Sheet, Side, Style};
use usm_kit::accounts::{in_group, leg};

/// `groups` spreads of `legs` legs each, every leg a line of its own; the holdings stand in
/// another order than the placement.
pub fn sheet(groups: u16, legs: usize) -> Sheet {
    sheet_from(leg("L50c").strike, groups, legs)
}

/// So many different sheets of 12 groups and 60 legs.
pub fn typical_sheets(count: u32) -> Vec<Sheet> {
    (0..count).map(|index| sheet_from(leg("L50c").strike + 10 * index, 12, 5)).collect()
}

/// The same with another lowest strike.
fn sheet_from(strike: u32, groups: u16, legs: usize) -> Sheet {
    let placement: Vec<Leg> = (1..=groups).flat_map(|group| spread(strike, group, legs)).collect();
    let count = placement.len();
    // 101 has no common factor with any count used here, so each leg comes up once.
    let holdings = (0..count).map(|index| in_group(0, placement[index * 101 % count])).collect();
    claimed(Sheet { holdings, placement, ..Sheet::default() }, groups)
}

/// The sheet with the margins of its groups claimed, which is then accepted.
pub fn claimed(mut sheet: Sheet, groups: u16) -> Sheet {
    let margin = |group| sheet.margin(u64::from(group)).expect("a spread");
    sheet.claims = (1..=groups).map(|group| Claim { group, margin: margin(group) }).collect();
    sheet.check().expect("a sheet to be timed is accepted");
    sheet
}

/// Verticals at ascending strikes, calls and puts in turn; a butterfly makes the number odd.
fn spread(strike: u32, group: u16, count: usize) -> Vec<Leg> {
    let lowest = Leg { group, strike, underlying: u32::from(group), ..leg("L50c") };
    let mut legs = Vec::new();
    let mut add = |side, option_type, contracts| {
        let strike = lowest.strike + 250 * legs.len() as u32;
        legs.push(Leg { side, option_type, strike, contracts, ..lowest });
    };
    if count % 2 == 1 {
        add(Side::Long, OptionType::Call, 5);
        add(Side::Short, OptionType::Call, 10);
        add(Side::Long, OptionType::Call, 5);
    }
    for pair in 0..(count / 2 - count % 2) {
        let option_type = if pair % 2 == 0 { OptionType::Put } else { OptionType::Call };
        add(Side::Short, option_type, 10);
        add(Side::Long, option_type, 10);
    }
    legs
}

/// P5's legs as European ones, each in so many records.
pub fn long_box(records: usize) -> Vec<Leg> {
    let kinds =
        ["L50c", "S60c", "L60p", "S50p"].map(|notation| Leg { style: Style::European, ..leg(notation) });
    kinds.iter().copied().cycle().take(kinds.len() * records).collect()
}
