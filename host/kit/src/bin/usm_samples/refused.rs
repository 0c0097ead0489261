//! Samples that are refused.

use usm::{Leg, Settlement, Sheet, Style};
use usm_kit::accounts::{in_group, leg, placed, times};

use crate::accepted::settled;
use crate::changes;
use crate::sample::{changed, iron_condor, sample, Sample};

/// Groups that are no spread (7 to 13).
pub fn no_spreads() -> Vec<Sample> {
    let [long_put, short_put, short_call, long_call] = iron_condor(2);
    vec![
        sample(
            "leg-of-another-underlying",
            "Group 2 is of underlying 7, and its second leg, the 4th record, of underlying 8.",
            placed(
                &[long_put, short_put, short_call, Leg { underlying: 8, ..long_call }],
                &[1_000_000, 500_000],
            ),
        ),
        sample(
            "contracts-balance-units-do-not",
            "One contract of unit 10 against one of unit 100: \
             the contracts are equal, the units are not.",
            placed(&[Leg { unit_size: 10, ..leg("L60c") }, leg("S50c")], &[1_000_000]),
        ),
        sample(
            "puts-pay-for-calls",
            "Two short calls against a long call and a long put: \
             units balance within calls and within puts.",
            placed(&[times(2, "S60c"), leg("L70c"), leg("L50p")], &[1_000_000]),
        ),
        sample(
            "short-outlives-a-long",
            "The short expires before the later long but after the earlier one.",
            placed(
                &[
                    times(2, "S60c"),
                    Leg { expiry: 20100522, ..leg("L70c") },
                    Leg { expiry: 20110618, ..leg("L70c") },
                ],
                &[2_000_000],
            ),
        ),
        sample(
            "long-and-short-one-series",
            "Long and short the same series, its unit size included, in one group.",
            placed(&[leg("L50c"), leg("S50c")], &[0]),
        ),
    ]
}

/// Spreads in a sheet that is refused (14 to 16).
pub fn sheets() -> Vec<Sample> {
    vec![
        sample(
            "claim-one-mill-short",
            "The iron condor in two groups, with the second claim a mill too small.",
            placed(&iron_condor(2), &[1_000_000, 499_999]),
        ),
        sample(
            "european-against-american",
            "The account holds the European line, the placement shows the American one: \
             same series, other line.",
            Sheet {
                holdings: vec![
                    in_group(0, leg("S50c")),
                    Leg { style: Style::European, ..in_group(0, leg("L60c")) },
                ],
                ..placed(&[leg("S50c"), leg("L60c")], &[1_000_000])
            },
        ),
        sample(
            "physical-against-cash",
            "The account holds a long that is settled physically, the placement shows it as cash: other lines.",
            Sheet {
                holdings: vec![
                    in_group(0, settled(Settlement::Physical)[0]),
                    in_group(0, settled(Settlement::Cash)[1]),
                ],
                ..placed(&settled(Settlement::Cash), &[1_000_000])
            },
        ),
        sample(
            "unpaid-unplaced-long",
            "A long that no group takes, and that is not marked as paid; `sheet mark-paid` marks it.",
            placed(&[in_group(0, leg("L50p"))], &[]),
        ),
        sample(
            "unplaced-short",
            "A short that no group takes.",
            placed(&[leg("L60c"), leg("S50c"), in_group(0, leg("S50p"))], &[1_000_000]),
        ),
    ]
}

/// Files that are refused before any rule is asked (1 to 4, 20).
pub fn changed_files() -> Vec<Sample> {
    vec![
        changed("damaged-block", changes::damage_a_strike),
        changed("kinds-that-fall", changes::put_claims_before_placement),
        changed("no-such-date", changes::expire_on_29_february_2011),
        changed("torn-file", changes::cut_off_the_end),
        changed("two-accounts-joined", changes::join_two_accounts),
        changed("two-forms-joined", changes::join_two_forms),
        changed("account-zero", changes::lose_the_account),
    ]
}
