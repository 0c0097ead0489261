//! Refusals 5 to 16: groups that are no spreads, and sheets that break a rule.

use usm::{Claim, Leg, Market, Settlement, Sheet, Style};
use usm_kit::accounts::{in_group, leg, paid, placed, times};

use crate::entry::Case;

/// P4's legs in two groups: three blocks, all accepted.
pub fn accepted() -> Sheet {
    let calls = [leg("S65c"), leg("L70c")].map(|leg| in_group(2, leg));
    placed(&[leg("L50p"), leg("S60p"), calls[0], calls[1]], &[1_000_000, 500_000])
}

/// Group 1 is no spread, and there is no group 2.
pub fn no_spread() -> Sheet {
    placed(&[leg("L60p"), in_group(0, leg("L50p"))], &[])
}

/// P5's legs as European ones.
fn european_box() -> [Leg; 4] {
    ["L50c", "S60c", "L60p", "S50p"].map(|notation| Leg { style: Style::European, ..leg(notation) })
}

/// Verticals that only one thing keeps from a cash account.
pub fn unfit() -> Vec<(&'static str, Sheet)> {
    let fit = |notation| Leg { style: Style::European, settlement: Settlement::Cash, ..leg(notation) };
    let [long, short] = [fit("L60c"), fit("S50c")];
    vec![
        ("American options", placed(&[leg("L60c"), leg("S50c")], &[])),
        ("no settlement", placed(&[long, Leg { settlement: Settlement::NotStated, ..short }], &[])),
        ("two settlements", placed(&[long, Leg { settlement: Settlement::Physical, ..short }], &[])),
        ("two expiries", placed(&[short, Leg { expiry: 20110618, ..long }], &[])),
        ("no spread", placed(&[short], &[])),
    ]
}

fn case(name: &str, sheet: Sheet) -> Case {
    (String::from(name), sheet.to_file().expect("a file"))
}

pub fn groups() -> Vec<Case> {
    let no_spread = |name, legs: &[Leg]| case(name, placed(legs, &[0]));
    let unplaced = in_group(0, leg("L90p"));
    let early = Leg { expiry: 20100522, ..leg("L70c") };
    let late = Leg { expiry: 20120121, ..early };
    let behind_two = |odd| [leg("L60c"), leg("S50c"), odd, leg("S50p")];
    let of_9 = Leg { underlying: 9, ..in_group(2, leg("S50p")) };
    vec![
        case("a claim without a leg", placed(&[leg("L60c"), leg("S50c")], &[1_000_000, 0])),
        no_spread("underlyings", &[unplaced, leg("L60c"), Leg { underlying: 8, ..leg("S50c") }]),
        case(
            "underlyings of group 2",
            placed(&[leg("L60c"), unplaced, in_group(2, leg("L60p")), leg("S50c"), of_9], &[1_000_000, 0]),
        ),
        no_spread("styles", &[leg("L60c"), unplaced, Leg { style: Style::European, ..leg("S50c") }]),
        no_spread("markets", &[leg("L60c"), Leg { market: Market::Otc, ..leg("S50c") }]),
        no_spread("underlyings behind two legs", &behind_two(Leg { underlying: 8, ..leg("L60p") })),
        no_spread("styles behind two legs", &behind_two(Leg { style: Style::European, ..leg("L60p") })),
        no_spread("markets behind two legs", &behind_two(Leg { market: Market::Otc, ..leg("L60p") })),
        no_spread("long and short one series", &[leg("L60c"), leg("S50c"), leg("S60c"), leg("L50p")]),
        no_spread("short and long one series", &[leg("S60c"), unplaced, leg("L60c"), leg("L60c")]),
        no_spread(
            "long and short one series of minis",
            &[Leg { unit_size: 10, ..leg("L60c") }, leg("S60c"), Leg { unit_size: 10, ..leg("S60c") }],
        ),
        no_spread("call units", &[times(12_345, "L60c"), leg("S50c"), leg("S50p")]),
        no_spread("put units", &[Leg { unit_size: 10, ..leg("L60p") }, leg("S50p")]),
        no_spread(
            "a short outlives a long",
            &[times(2, "S60c"), early, Leg { expiry: 20110618, ..leg("L70c") }],
        ),
        no_spread("a short outlives a long before it", &[unplaced, early, leg("S60c")]),
        no_spread("a short outlives the second of two longs", &[late, early, times(2, "S60c")]),
        no_spread(
            "a long that two shorts outlive",
            &[leg("S60c"), leg("S65c"), Leg { contracts: 2, ..early }],
        ),
    ]
}

pub fn rules() -> Vec<Case> {
    let sheet = accepted();
    let mut misnumbered = sheet.clone();
    misnumbered.claims[1].group = 3;
    let mut unclaimed = sheet.clone();
    unclaimed.claims.pop();
    let no_claims = Sheet { claims: Vec::new(), ..sheet.clone() };
    let mut held_less = sheet.clone();
    held_less.placement.extend([in_group(0, times(3, "L90c"))]);
    let mut held_more = sheet.clone();
    held_more.holdings.extend([in_group(0, times(1_500, "L70c")), in_group(0, leg("L70c"))]);
    let mut other_settlement = sheet.clone();
    other_settlement.placement[1].settlement = Settlement::Cash;
    let mut unplaced = placed(&[leg("L60c"), leg("S50c"), in_group(0, leg("S50p"))], &[1_000_000]);
    unplaced.placement.rotate_right(1);
    let short_box = ["S50c", "L60c", "S60p", "L50p"].map(leg);
    let claims = vec![Claim { group: 1, margin: 1_000_000 }, Claim { group: 2, margin: 499_999 }];
    vec![
        case("claims out of number", misnumbered),
        case("a group above the claims", unclaimed),
        case("groups and no claims", no_claims),
        case("more held than placed", held_more),
        case("placed and not held", held_less),
        case("held as another settlement", other_settlement),
        case("an unplaced short", unplaced),
        case(
            "an unplaced long that is not paid",
            placed(&[paid(leg("L90c")), in_group(0, leg("L50p"))], &[]),
        ),
        case("a claim a mill short", Sheet { claims, ..sheet }),
        case("a European long box that claims nothing", placed(&european_box(), &[0])),
        case("a short American box that claims nothing", placed(&short_box, &[0])),
    ]
}
