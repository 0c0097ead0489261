//! "European long boxes": document 02, [2].

use usm_values::{Leg, OptionType, Side, Style};

/// What the margin of a long box is half of, the aggregate difference in exercise prices, in mills; none
/// where the legs, which are a spread, are no European long box.
pub fn aggregate_difference(legs: &[Leg]) -> Option<i64> {
    let low = legs.iter().map(|leg| leg.strike).min()?;
    let high = legs.iter().map(|leg| leg.strike).max()?;
    let expiry = legs.first()?.expiry;
    let kinds = [
        (Side::Long, OptionType::Call, low),
        (Side::Short, OptionType::Call, high),
        (Side::Long, OptionType::Put, high),
        (Side::Short, OptionType::Put, low),
    ];
    let kind = |leg: &Leg| (leg.side, leg.option_type, leg.strike);
    let fits = |leg: &Leg| {
        leg.style == Style::European && leg.expiry == expiry && kinds.iter().any(|of| *of == kind(leg))
    };
    // Records of one kind are added together, in units.
    let units = kinds.map(|of| legs.iter().filter(|leg| kind(leg) == of).map(Leg::units).sum::<i64>());
    let even = units.iter().all(|sum| *sum == units[0]);
    (low < high && even && legs.iter().all(fits)).then(|| units[0] * i64::from(high - low))
}
