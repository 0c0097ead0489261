//! Joined groups (document 02, [13]), worked by hand: what two groups need apart, and what they need in one.

use usm::{Leg, Market, OptionType, Refusal, Style, Tables};
use usm_kit::accounts::{in_group, leg, placed};
use usm_kit::both::BOTH;

use crate::{assert_line, refusal};

/// Legs in the bench's notation, in this group and of this style.
fn group<const N: usize>(group: u16, style: Style, legs: [&str; N]) -> [Leg; N] {
    legs.map(|notation| Leg { group, style, ..leg(notation) })
}

/// Two groups are accepted with these claims; in one they have this margin, or the refusal of this number, by library
/// and model.
#[track_caller]
fn assert_joined(one: &[Leg], two: &[Leg], claims: [i64; 2], expected: Result<i64, u64>) {
    let apart = placed(&[one, two].concat(), &claims);
    assert_line(&apart, &format!("ACCEPT 2 {}", claims[0] + claims[1]));
    let number = |refusal: Refusal| refusal.number;
    let mut joined = apart.joined(1, 2).expect("two spreads");
    let Tables { placement, .. } = joined.tables();
    for calls in &BOTH {
        assert_eq!((calls.margin)(&placement, 1).map_err(number), expected, "{}", calls.name);
        assert_eq!((calls.margin)(&placement, 2), refusal(6, 2, 2), "{}: one group is left", calls.name);
    }
    assert_eq!(joined.claim_margins().map_err(number), expected.map(|_| ()));
    if let Ok(margin) = expected {
        assert_line(&joined, &format!("ACCEPT 1 {margin}"));
    }
}

#[test]
fn an_iron_condor_needs_less_than_its_halves() {
    let puts = group(1, Style::American, ["L50p", "S60p"]);
    let calls = group(2, Style::American, ["S65c", "L70c"]);
    assert_joined(&puts, &calls, [1_000_000, 500_000], Ok(1_000_000));
}

/// Why boxes are left out of [13]: neither vertical can lose, and the box they make needs half of what it gains.
#[test]
fn two_european_verticals_of_margin_0_make_a_long_box() {
    let verticals = |style| (group(1, style, ["L50c", "S60c"]), group(2, style, ["L60p", "S50p"]));
    let (calls, puts) = verticals(Style::European);
    assert_joined(&calls, &puts, [0, 0], Ok(500_000));
    let (calls, puts) = verticals(Style::American);
    assert_joined(&calls, &puts, [0, 0], Ok(0));
}

#[test]
fn a_short_box_needs_no_more_than_its_verticals() {
    let calls = group(1, Style::European, ["S50c", "L60c"]);
    let puts = group(2, Style::European, ["S60p", "L50p"]);
    assert_joined(&calls, &puts, [1_000_000, 1_000_000], Ok(1_000_000));
}

#[test]
fn two_long_boxes_in_one_are_halved_once() {
    // Strikes a mill apart and one unit: half a mill each, rounded up.
    let small = |number: u16| {
        group(number, Style::European, ["L50c", "S60c", "L60p", "S50p"]).map(|leg| Leg {
            strike: if leg.strike == 60_000 { 50_001 } else { 50_000 },
            unit_size: 1,
            ..leg
        })
    };
    assert_joined(&small(1), &small(2), [1, 1], Ok(1));
}

#[test]
fn a_vertical_beside_a_long_box_makes_it_none() {
    let long_box = group(1, Style::European, ["L50c", "S60c", "L60p", "S50p"]);
    let vertical = group(2, Style::European, ["L60c", "S55c"]);
    assert_joined(&long_box, &vertical, [500_000, 500_000], Err(10));
    // The box gains more than the vertical loses.
    let vertical = group(2, Style::European, ["L70c", "S65c"]);
    assert_joined(&long_box, &vertical, [500_000, 500_000], Ok(0));
}

#[test]
fn what_two_groups_may_not_share_is_refused() {
    let one = group(1, Style::American, ["L60c", "S50c"]);
    let two = group(2, Style::American, ["L80c", "S70c"]);
    let claims = [1_000_000, 1_000_000];
    assert_joined(&one, &two, claims, Ok(2_000_000));
    let each = |change: fn(Leg) -> Leg| two.map(change);
    assert_joined(&one, &each(|leg| Leg { underlying: 8, ..leg }), claims, Err(7));
    assert_joined(&one, &each(|leg| Leg { style: Style::European, ..leg }), claims, Err(8));
    assert_joined(&one, &each(|leg| Leg { market: Market::Otc, ..leg }), claims, Err(9));
    assert_joined(&one, &each(|leg| Leg { expiry: 20110618, ..leg }), claims, Err(13));
    // Puts beside calls of the same strikes are other series.
    let puts = two.map(|leg| Leg { option_type: OptionType::Put, strike: leg.strike - 20_000, ..leg });
    assert_joined(&one, &puts, [1_000_000, 0], Ok(1_000_000));
}

#[test]
fn the_groups_above_move_down_and_keep_their_margins() {
    let legs = [
        group(3, Style::American, ["L85c", "S80c"]),
        group(1, Style::American, ["L60c", "S50c"]),
        group(2, Style::American, ["L45p", "S55p"]),
        group(4, Style::American, ["L60c", "S58c"]),
    ];
    let sheet = placed(&legs.concat(), &[1_000_000, 1_000_000, 500_000, 200_000]);
    assert_line(&sheet, "ACCEPT 4 2700000");
    let mut joined = sheet.joined(2, 1).expect("two spreads");
    assert_eq!(joined.claim_margins(), Ok(()));
    let claims: Vec<i64> = joined.claims.iter().map(|claim| claim.margin).collect();
    assert_eq!(claims, [1_000_000, 500_000, 200_000]);
    assert_eq!(joined.placement[0], in_group(2, legs[0][0]));
    assert_line(&joined, "ACCEPT 3 1700000");
}
