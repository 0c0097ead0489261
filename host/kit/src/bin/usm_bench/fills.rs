//! Holdings and the fills of a day that are timed.

use usm::{Action, Fill, Leg, MOST_FILLS, MOST_LEGS};
use usm_kit::accounts::{in_group, leg};

/// So many lines, ten contracts of each.
pub fn held(lines: usize) -> Vec<Leg> {
    (0..lines).map(line).collect()
}

fn line(index: usize) -> Leg {
    in_group(0, Leg { strike: 50_000 + 250 * index as u32, contracts: 10, ..leg("L50c") })
}

/// Opens and closes over these lines in mixed order, of which a few close more than is held, a few end a
/// line, and a few open one that was not held.
pub fn day(lines: usize, fills: usize) -> Vec<Fill> {
    (0..fills)
        .map(|index| {
            // 101 has no common factor with any count used here, so each line comes up.
            let place = index * 101 % (lines + 1);
            let (action, contracts) = match index % 8 {
                0..=2 => (Action::Open, 3),
                3..=5 => (Action::Close, 4),
                6 => (Action::Close, 10),
                _ => (Action::Close, 99),
            };
            Fill { action, leg: Leg { contracts, ..line(place) } }
        })
        .collect()
}

/// The first line leaves and comes back at the end, over and over: as many records as there may be move up
/// each time.
pub fn crowded() -> Vec<Fill> {
    (0..MOST_FILLS)
        .map(|index| {
            let action = if index % 2 == 0 { Action::Close } else { Action::Open };
            Fill { action, leg: line(index / 2 % MOST_LEGS) }
        })
        .collect()
}
