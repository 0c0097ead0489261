//! Refusals 7, 8, 9, 10 and 13: the leg that they point at, and the first leg before it in its group that it
//! does not go with.

use std::cmp::Ordering;

use crate::text::{date_text, market_name, placed_text, series_text, side_name, style_name};
use usm_values::numbers::ordinal;
use usm_values::{Leg, Reason, Side};

/// A leg and its place in the placement.
pub type Placed<'a> = (u64, &'a Leg);

/// The place of a leg, and its own text; `of_what` tells once what the place is in.
pub fn named((at, leg): Placed, of_what: &str) -> String {
    format!("the {} record{of_what} (`{}`)", ordinal(at), placed_text(leg))
}

pub const OF_PLACEMENT: &str = " of the placement";

pub fn sentence(placement: &[Leg], place: u64, reason: Reason) -> Option<String> {
    let leg = placement.get(usize::try_from(place).ok()?)?;
    let other = earlier(placement, place, reason)?;
    let wrong = match reason {
        Reason::UnderlyingsDiffer => differs(leg, other, "underlying", |leg| leg.underlying.to_string()),
        Reason::StylesDiffer => differs(leg, other, "style", |leg| style_name(leg.style).to_string()),
        Reason::MarketsDiffer => differs(leg, other, "market", |leg| market_name(leg.market).to_string()),
        Reason::SeriesLongAndShort => doubled(leg, other),
        _ => outlived(leg, other),
    };
    Some(format!("{}: {wrong}", named((place, leg), OF_PLACEMENT)))
}

/// The first leg before the one at this place, in its group, that it does not go with.
pub fn earlier(placement: &[Leg], place: u64, reason: Reason) -> Option<Placed<'_>> {
    let index = usize::try_from(place).ok()?;
    let leg = placement.get(index).filter(|leg| leg.group > 0)?;
    let before = (0..).zip(&placement[..index]).filter(|(_, other)| other.group == leg.group);
    before.into_iter().find(|(_, other)| match reason {
        Reason::UnderlyingsDiffer => other.underlying != leg.underlying,
        Reason::StylesDiffer => other.style != leg.style,
        Reason::MarketsDiffer => other.market != leg.market,
        Reason::SeriesLongAndShort => other.side != leg.side && other.series() == leg.series(),
        Reason::ShortOutlivesLong => other.side != leg.side && leg.expiry.cmp(&other.expiry) == past(leg).0,
        _ => false,
    })
}

fn differs(leg: &Leg, (at, other): Placed, what: &str, term: fn(&Leg) -> String) -> String {
    let (own, first, group, since) = (term(leg), term(other), leg.group, ordinal(at));
    format!("its {what} is {own}, that of group {group} is {first} since the {since} record")
}

fn doubled(leg: &Leg, other: Placed) -> String {
    format!(
        "it is {} {}, and group {} is {} that series since {}",
        side_name(leg.side),
        series_text(leg),
        leg.group,
        side_name(other.1.side),
        named(other, ""),
    )
}

/// How a leg may not expire against one of the other side, and the word for it.
fn past(leg: &Leg) -> (Ordering, &'static str) {
    match leg.side {
        Side::Short => (Ordering::Greater, "after"),
        Side::Long => (Ordering::Less, "before"),
    }
}

fn outlived(leg: &Leg, other: Placed) -> String {
    format!(
        "this {} expires on {}, {} the {} of group {} that expires on {}, {}",
        side_name(leg.side),
        date_text(leg.expiry),
        past(leg).1,
        side_name(other.1.side),
        leg.group,
        date_text(other.1.expiry),
        named(other, ""),
    )
}
