//! Legs, roots and sheets in the notation of document 01's "Accounts on the bench": for the samples,
//! the benchmark and the tests.

use usm::{padded_root, Claim, Leg, Market, OptionType, Root, Settlement, Sheet, Side, Style};

/// One leg, as `L60c` for long a call at 60 dollars: listed, American, unit 100, one
/// underlying, one contract, expiry 20110521, settlement not stated, no paid mark, in group 1.
///
/// # Panics
///
/// If the leg is written in another way.
pub fn leg(notation: &str) -> Leg {
    let (side, rest) = notation.split_at(1);
    let (dollars, option_type) = rest.split_at(rest.len() - 1);
    Leg {
        group: 1,
        side: match side {
            "L" => Side::Long,
            "S" => Side::Short,
            _ => panic!("{notation}: a leg starts with L or S"),
        },
        option_type: match option_type {
            "c" => OptionType::Call,
            "p" => OptionType::Put,
            _ => panic!("{notation}: a leg ends with c or p"),
        },
        style: Style::American,
        market: Market::Listed,
        unit_size: 100,
        underlying: 7,
        strike: dollars.parse::<u32>().expect("a strike in whole dollars") * 1_000,
        expiry: 20110521,
        contracts: 1,
        settlement: Settlement::NotStated,
        paid: false,
    }
}

/// The root of this name that stands for the terms of such a leg.
///
/// # Panics
///
/// If it is no name of a root.
pub fn root(name: &str) -> Root {
    let Leg { style, market, unit_size, settlement, underlying, .. } = leg("L60c");
    let name = padded_root(name).expect("a name of a root");
    Root { name, style, market, unit_size, settlement, underlying }
}

/// Several contracts of a leg.
pub fn times(contracts: u32, notation: &str) -> Leg {
    Leg { contracts, ..leg(notation) }
}

/// A leg in another group, or in 0 for one that is held or not placed.
pub fn in_group(group: u16, leg: Leg) -> Leg {
    Leg { group, ..leg }
}

/// A leg that is not placed and marked as paid.
pub fn paid(leg: Leg) -> Leg {
    Leg { group: 0, paid: true, ..leg }
}

/// The sheet that holds just what it places, and claims these margins for groups 1, 2, ...
pub fn placed(placement: &[Leg], margins: &[i64]) -> Sheet {
    Sheet {
        account: 0,
        holdings: placement.iter().map(|leg| in_group(0, *leg)).collect(),
        placement: placement.to_vec(),
        claims: (1..).zip(margins).map(|(group, &margin)| Claim { group, margin }).collect(),
    }
}

/// The longest sheet: 32 groups of 8 legs and so 256 records, 256 records and 32 claims, which
/// fill 39 blocks. It is accepted.
pub fn fullest() -> Sheet {
    let verticals = (1..=32).flat_map(|group| {
        (1..=8).map(move |strike| {
            let side = if strike % 2 == 0 { Side::Long } else { Side::Short };
            Leg { group, side, strike, ..leg("L50c") }
        })
    });
    // Each short lies one mill below its long: at the top strike four pairs lose a mill a unit.
    placed(&verticals.collect::<Vec<Leg>>(), &[400; 32])
}
