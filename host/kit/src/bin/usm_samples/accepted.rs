//! Samples that are accepted.

use usm::{Leg, OptionType, Settlement, Sheet, Style};
use usm_kit::accounts::{in_group, leg, paid, placed, times};

use crate::sample::{iron_condor, sample, Sample, ACCOUNT};

/// One group each, and accepted.
pub fn spreads() -> Vec<Sample> {
    vec![
        sample(
            "iron-condor-in-one-group",
            "The same legs as one spread: only one half can lose, so it needs less.",
            placed(&iron_condor(1), &[1_000_000]),
        ),
        sample(
            "vertical",
            "Long the 60 call, short the 50: it loses the difference from 60 up, which is its margin.",
            placed(&[leg("L60c"), leg("S50c")], &[1_000_000]),
        ),
        sample(
            "butterfly",
            "A long butterfly never loses at its strikes: no margin.",
            placed(&[leg("L50c"), times(2, "S60c"), leg("L70c")], &[0]),
        ),
        sample(
            "box",
            "A long box of American options gains at every price; its margin is 0, not less.",
            placed(&long_box(Style::American), &[0]),
        ),
        sample(
            "european-box",
            "The same long box of European options: half of the difference in strikes times units.",
            placed(&long_box(Style::European), &[500_000]),
        ),
        sample(
            "cash-account",
            "All European, all stated as cash, one expiry: `sheet cash` tells what it requires.",
            placed(&settled(Settlement::Cash), &[1_000_000]),
        ),
        sample(
            "calendar",
            "A short covered by a long of the same strike that expires later.",
            placed(&[leg("S50c"), Leg { expiry: 20110618, ..leg("L50c") }], &[0]),
        ),
        sample(
            "units-balance-contracts-do-not",
            "Ten contracts of unit 10 against one of unit 100: the units are equal.",
            placed(&[Leg { unit_size: 10, contracts: 10, ..leg("L60c") }, leg("S50c")], &[1_000_000]),
        ),
        sample(
            "mini-against-standard",
            "Ten reduced contracts long against one standard contract short, same strike and expiry: \
             their unit sizes make them two series.",
            placed(&[Leg { unit_size: 10, contracts: 10, ..leg("L50c") }, leg("S50c")], &[0]),
        ),
    ]
}

/// P5's legs in this style.
fn long_box(style: Style) -> [Leg; 4] {
    ["L50c", "S60c", "L60p", "S50p"].map(|notation| Leg { style, ..leg(notation) })
}

/// P5's legs as European ones, calls in group 1 and puts in group 2.
fn box_in_two_groups() -> [Leg; 4] {
    long_box(Style::European).map(|leg| match leg.option_type {
        OptionType::Call => leg,
        OptionType::Put => in_group(2, leg),
    })
}

/// A European vertical in group 1, settled so.
pub fn settled(settlement: Settlement) -> [Leg; 2] {
    ["L60c", "S50c"].map(|notation| Leg { style: Style::European, settlement, ..leg(notation) })
}

/// About the placement as a whole, and accepted.
pub fn sheets() -> Vec<Sample> {
    vec![
        sample(
            "iron-condor-in-two-groups",
            "An iron condor placed as two verticals: each half needs its own margin.",
            placed(&iron_condor(2), &[1_000_000, 500_000]),
        ),
        sample(
            "european-box-in-two-groups",
            "The European long box placed as two verticals, calls and puts: neither loses, and in one group they need \
             half of the difference (`sheet join`).",
            placed(&box_in_two_groups(), &[0, 0]),
        ),
        sample(
            "split-lines",
            "A line held in one record and placed in two groups, another held in two records.",
            split_lines(),
        ),
        sample(
            "with-an-account",
            "The vertical in a file of the new form: each block has the number of the account.",
            Sheet { account: ACCOUNT, ..placed(&[leg("L60c"), leg("S50c")], &[1_000_000]) },
        ),
        sample(
            "lone-unplaced-long",
            "A long that no group takes is free once it is paid: its value is never below zero.",
            placed(&[paid(leg("L50p"))], &[]),
        ),
    ]
}

/// Holdings and placement with the same contracts in every line and side, cut differently.
fn split_lines() -> Sheet {
    let second = [times(2, "S50c"), times(2, "L60c")].map(|leg| in_group(2, leg));
    let holdings = [times(5, "L60c"), times(1, "S50c"), times(4, "S50c")].map(|leg| in_group(0, leg));
    let placement = [times(3, "L60c"), times(3, "S50c"), second[0], second[1]];
    Sheet { holdings: holdings.to_vec(), ..placed(&placement, &[3_000_000, 2_000_000]) }
}
