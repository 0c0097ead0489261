//! Why a group needs a margin though it loses nothing: it is a European long box.

use usm_values::numbers::{amount, dollars};

/// A margin; and what it is half of, where it is not the worst loss of the worksheet: of a European long box that
/// is the aggregate difference in exercise prices, its net at every strike.
///
/// ```
/// use usm::sentences::of_margin;
/// let half = "$500.000 (500000 mills), half of $1,000.000, the difference in strikes of this European long box \
///             times its units";
/// assert_eq!(of_margin(500_000, &[(50_000, 1_000_000), (60_000, 1_000_000)]), half);
/// assert_eq!(of_margin(0, &[(50_000, 1_000_000), (60_000, 1_000_000)]), "$0.000 (0 mills)");
/// assert_eq!(of_margin(1_000_000, &[(50_000, 0), (60_000, -1_000_000)]), "$1,000.000 (1000000 mills)");
/// ```
pub fn of_margin(margin: i64, worksheet: &[(u32, i64)]) -> String {
    let half = half_of(margin, worksheet).map(|difference| {
        format!(
            ", half of {}, the difference in strikes of this European long box times its units",
            dollars(difference)
        )
    });
    format!("{}{}", amount(margin), half.unwrap_or_default())
}

/// What the margin of a European long box is half of: its net at every strike. None for any other group.
///
/// ```
/// use usm::sentences::half_of;
/// assert_eq!(half_of(500_000, &[(50_000, 1_000_000), (60_000, 1_000_000)]), Some(1_000_000));
/// assert_eq!(half_of(0, &[(50_000, 1_000_000), (60_000, 1_000_000)]), None);
/// ```
pub fn half_of(margin: i64, worksheet: &[(u32, i64)]) -> Option<i64> {
    let net = worksheet.first().map_or(0, |(_, net)| *net);
    let gains_alike = worksheet.iter().all(|(_, other)| *other == net) && net > 0;
    (gains_alike && margin > 0).then_some(net)
}
