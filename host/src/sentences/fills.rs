//! Why a fill is refused, or the holdings that fills are played over.

use crate::fills::play;
use crate::text::{fill_text, leg_text};
use usm_values::numbers::{count, grouped, ordinal};
use usm_values::{Fill, Leg, Reason, Refusal, FILLS_TABLE, MOST_CONTRACTS, MOST_LEGS};

/// The sentence of a refusal that [`crate::play`] answered or listed.
///
/// ```
/// use usm::{sentences, Refusal};
/// let refusal = Refusal::new(18, 4, 0);
/// assert_eq!(sentences::of_fills(&[], &[], &refusal), "the 1st fill closes more contracts than are held");
/// ```
pub fn of_fills(holdings: &[Leg], fills: &[Fill], refusal: &Refusal) -> String {
    let place = usize::try_from(refusal.place).unwrap_or(usize::MAX);
    let sentence = match (refusal.reason(), refusal.table) {
        (Some(Reason::TooMuchHeld), 1) => repeated(holdings, place),
        (Some(reason), FILLS_TABLE) => refused(holdings, fills, place, reason),
        _ => None,
    };
    sentence.unwrap_or_else(|| refusal.to_string())
}

fn is_same(leg: &Leg) -> impl Fn(&&Leg) -> bool + '_ {
    move |other| other.line() == leg.line() && other.side == leg.side
}

/// A record that takes its line and side past the limit.
fn repeated(holdings: &[Leg], place: usize) -> Option<String> {
    let leg = holdings.get(place)?;
    let sum: u64 = holdings[..=place].iter().filter(is_same(leg)).map(|leg| u64::from(leg.contracts)).sum();
    Some(format!(
        "the {} record of the holdings (`{}`): with it there are {} of its line and side, more than {}",
        ordinal(place as u64),
        leg_text(leg),
        count(sum, "contract"),
        grouped(MOST_CONTRACTS),
    ))
}

/// A fill, by what was held when it came.
fn refused(holdings: &[Leg], fills: &[Fill], place: usize, reason: Reason) -> Option<String> {
    let fill = fills.get(place)?;
    let before = play(holdings, &fills[..place]).ok()?.holdings;
    let held = before.iter().find(is_same(&fill.leg)).map_or(0, |leg| leg.contracts);
    let wrong = match reason {
        Reason::MoreClosedThanHeld => {
            format!("closes {}, and {} held", count(u64::from(fill.leg.contracts), "contract"), are(held))
        }
        Reason::TooMuchHeld if held == 0 => {
            format!(
                "is of a line and side that is not held, and {MOST_LEGS} others are, the most there may be"
            )
        }
        Reason::TooMuchHeld => format!(
            "would make {} of its line and side, more than {}",
            count(u64::from(held) + u64::from(fill.leg.contracts), "contract"),
            grouped(MOST_CONTRACTS),
        ),
        _ => return None,
    };
    Some(format!("the {} fill (`{}`) {wrong}", ordinal(place as u64), fill_text(fill)))
}

/// How many there are.
fn are(held: u32) -> String {
    match held {
        0 => String::from("none is"),
        1 => String::from("1 is"),
        held => format!("{} are", grouped(held)),
    }
}
