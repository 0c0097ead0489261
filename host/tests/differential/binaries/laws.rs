//! What request [11] promises of any binaries, tried on the library's own answers, without the model.

use std::fmt::Display;

use usm::{binary_margin, binary_pair, Binary, LongBinary, Refusal, Side, GREATEST_SPREAD};

use super::{expiry, spread, Numbers};
use crate::random::Random;

/// No position needs more mills than this.
const MOST: i64 = 30_000_000_000;

fn of(side: Side, valuation: u64, binary: &Binary) -> Result<i64, Refusal> {
    binary_margin(side, binary.spread, valuation, binary.expiry, binary.contracts)
}

/// In every cell a short needs twice what a long does, and neither more than the most there is.
pub fn a_short_needs_twice_what_a_long_does(case: &dyn Display, given: &Numbers) {
    let (long, short) =
        (of(Side::Long, given.valuation, &given.long), of(Side::Short, given.valuation, &given.long));
    assert_eq!(short, long.map(|margin| 2 * margin), "{case}: {given:?}");
    if let Ok(margin) = short {
        assert!((1_000..=MOST).contains(&margin), "{case}: {given:?}: {margin}");
    }
}

/// A wider spread or a longer time never needs less.
pub fn margins_grow(case: &dyn Display, random: &mut Random, given: &Numbers) {
    let Numbers { valuation, long: one, .. } = *given;
    let other = Binary { spread: spread(random), expiry: expiry(random, valuation), ..one };
    let least = Binary { spread: one.spread.min(other.spread), expiry: one.expiry.min(other.expiry), ..one };
    for side in [Side::Long, Side::Short] {
        let [least, one, other] = [least, one, other].map(|binary| of(side, valuation, &binary));
        for more in [one, other] {
            if let (Ok(least), Ok(more)) = (least, more) {
                assert!(least <= more, "{case}: {given:?}: {least} and {more}");
            }
        }
    }
}

/// A pair needs no more than its two positions apart; without a match as much; matched in full nothing.
pub fn a_pair_never_needs_more_than_apart(case: &dyn Display, given: &Numbers) {
    let Numbers { valuation, long, short, .. } = *given;
    let [paid, unpaid] = [true, false].map(|paid| LongBinary { binary: long, paid });
    let (bought, written) = (of(Side::Long, valuation, &long), of(Side::Short, valuation, &short));
    if let (Ok(bought), Ok(written)) = (bought, written) {
        let pair = binary_pair(valuation, paid, short).expect("good positions");
        assert!((0..=bought + written).contains(&pair), "{case}: {given:?}: {pair}");
        assert_eq!(binary_pair(valuation, unpaid, short), Ok(bought + written), "{case}: {given:?}");
        let alike = Binary { contracts: long.contracts, reference: long.reference, ..short };
        if long.expiry >= short.expiry {
            assert_eq!(binary_pair(valuation, paid, alike), Ok(0), "{case}: {given:?}");
        }
    }
}

#[test]
fn the_most_is_reached() {
    let most = binary_margin(Side::Short, GREATEST_SPREAD, 20000101, 20991231, 100_000);
    assert_eq!(most, Ok(MOST));
}
