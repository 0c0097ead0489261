//! A sheet as Rust values: what survives a file, groups that are joined, and claims that are filled in.

#![forbid(unsafe_code)]

use usm::{Form, Origin, Refusal, Sheet, BLOCK_BYTES};
use usm_kit::accounts::{fullest, in_group, leg, paid, placed};
use usm_kit::block::account_of;

#[test]
fn every_account_survives_a_file() {
    let numbers = [1, u64::from(u32::MAX), 1 << 32, 1 << 32 | 4711, 1 << 63, u64::MAX - 1, u64::MAX];
    for account in numbers {
        for sheet in [placed(&[leg("L60c"), leg("S50c")], &[1_000_000]), fullest()] {
            let sheet = Sheet { account, ..sheet };
            let file = sheet.to_file().expect("a file");
            assert!(file.chunks(BLOCK_BYTES).all(|block| account_of(block) == account), "{account}");
            assert_eq!(Sheet::from_file(&file), Ok(sheet.clone()));
            assert_eq!(Sheet::with_origin(&file), Ok((sheet, Origin { form: Form::New, account })));
        }
    }
    let none = placed(&[leg("L60c"), leg("S50c")], &[1_000_000]);
    assert_eq!(Sheet::with_origin(&none.to_file().expect("a file")), Ok((none, Origin::OLD)));
}

/// Verticals in groups 1 to 4, each of its own strikes, among them a long that is not placed; in each group the
/// long stands before the short, but in group 2.
fn four_groups() -> Sheet {
    let legs = [
        in_group(2, leg("S20c")),
        leg("L11c"),
        leg("S10c"),
        paid(leg("L90c")),
        in_group(4, leg("L44c")),
        in_group(3, leg("L33c")),
        in_group(3, leg("S30c")),
        in_group(2, leg("L22c")),
        in_group(4, leg("S40c")),
    ];
    Sheet { account: 4711, ..placed(&legs, &[100_000, 200_000, 300_000, 400_000]) }
}

fn groups(sheet: &Sheet) -> Vec<u16> {
    sheet.placement.iter().map(|leg| leg.group).collect()
}

#[test]
fn groups_are_numbered_without_a_gap_again() {
    let sheet = four_groups();
    for (pair, expected) in [
        ([1, 2], [1, 1, 1, 0, 3, 2, 2, 1, 3]),
        ([1, 4], [2, 1, 1, 0, 1, 3, 3, 2, 1]),
        ([2, 3], [2, 1, 1, 0, 3, 2, 2, 2, 3]),
        ([3, 4], [2, 1, 1, 0, 3, 3, 3, 2, 3]),
    ] {
        let joined = sheet.joined(pair[0], pair[1]).expect("two groups");
        assert_eq!(groups(&joined), expected, "{pair:?}");
        assert_eq!(sheet.joined(pair[1], pair[0]), Ok(joined.clone()), "{pair:?} in the other order");
        let renumbered = joined.placement.iter().zip(&sheet.placement);
        assert!(renumbered.clone().all(|(new, old)| in_group(old.group, *new) == *old), "legs stay");
        let rest = Sheet { placement: sheet.placement.clone(), ..joined };
        assert_eq!(rest, sheet, "account, holdings and claims stay");
    }
    assert_eq!(sheet.joined(3, 3), Ok(sheet.clone()));
}

#[test]
fn a_group_that_is_not_there_or_no_spread_is_refused() {
    let mut sheet = four_groups();
    for (pair, group) in [([5, 1], 5), ([1, 33], 33), ([0, 2], 0), ([2, u64::MAX], u64::MAX), ([7, 6], 7)] {
        assert_eq!(sheet.joined(pair[0], pair[1]), Err(Refusal::new(6, 2, group)), "{pair:?}");
    }
    sheet.placement[1].contracts = 2;
    assert_eq!(sheet.joined(2, 1), Err(Refusal::new(11, 2, 1)));
}

#[test]
fn claims_are_the_margins_of_all_groups() {
    let mut sheet = four_groups();
    let claims = std::mem::take(&mut sheet.claims);
    assert_eq!(sheet.claim_margins(), Ok(()));
    assert_eq!(sheet.claims, claims);
    // A group that is left out is refused, and the claims stay.
    sheet.placement.retain(|leg| leg.group != 3);
    assert_eq!(sheet.claim_margins(), Err(Refusal::new(6, 2, 3)));
    assert_eq!(sheet.claims, claims);
    let mut unplaced = placed(&[paid(leg("L50p"))], &[7]);
    assert_eq!((unplaced.claim_margins(), unplaced.claims), (Ok(()), vec![]));
}
