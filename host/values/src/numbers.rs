//! Numbers as people read and count them.

use std::fmt::Display;

/// A whole number with a comma before every third digit from its end.
///
/// ```
/// # use usm_values as usm;
/// use usm::numbers::grouped;
/// assert_eq!([grouped(0), grouped(1998), grouped(-1_000_000)], ["0", "1,998", "-1,000,000"]);
/// ```
pub fn grouped(number: impl Display) -> String {
    let plain = number.to_string();
    let (sign, digits) = match plain.strip_prefix('-') {
        Some(digits) => ("-", digits),
        None => ("", plain.as_str()),
    };
    let commas = digits.char_indices().map(|(index, digit)| {
        let behind = digits.len() - index;
        let comma = if index > 0 && behind % 3 == 0 { "," } else { "" };
        format!("{comma}{digit}")
    });
    format!("{sign}{}", commas.collect::<String>())
}

/// An amount of mills (1/1000 dollar) in dollars.
///
/// ```
/// # use usm_values as usm;
/// use usm::numbers::dollars;
/// assert_eq!([dollars(1_500_000), dollars(-1)], ["$1,500.000", "-$0.001"]);
/// ```
pub fn dollars(mills: impl Into<i128>) -> String {
    let mills = mills.into();
    let sign = if mills < 0 { "-" } else { "" };
    let mills = mills.unsigned_abs();
    format!("{sign}${}.{:03}", grouped(mills / 1_000), mills % 1_000)
}

/// An amount of mills in dollars and in mills, as sentences say it.
///
/// ```
/// # use usm_values as usm;
/// assert_eq!(usm::numbers::amount(1_500_000), "$1,500.000 (1500000 mills)");
/// ```
pub fn amount(mills: impl Into<i128>) -> String {
    let mills = mills.into();
    format!("{} ({mills} mills)", dollars(mills))
}

/// A place that counts from 0, as people count: the 1st, the 2nd.
///
/// ```
/// # use usm_values as usm;
/// use usm::numbers::ordinal;
/// assert_eq!([0, 1, 2, 3, 10, 20, 111].map(ordinal), ["1st", "2nd", "3rd", "4th", "11th", "21st", "112th"]);
/// ```
pub fn ordinal(place: u64) -> String {
    let number = u128::from(place) + 1;
    let ending = match (number % 10, number % 100) {
        (_, 11..=13) => "th",
        (1, _) => "st",
        (2, _) => "nd",
        (3, _) => "rd",
        _ => "th",
    };
    format!("{}{ending}", grouped(number))
}

/// A count and what is counted.
///
/// ```
/// # use usm_values as usm;
/// use usm::numbers::count;
/// assert_eq!([1, 2_000].map(|number: u64| count(number, "contract")), ["1 contract", "2,000 contracts"]);
/// ```
pub fn count(number: impl Display + PartialEq<u64>, one: &str) -> String {
    let plural = if number == 1 { "" } else { "s" };
    format!("{} {one}{plural}", grouped(number))
}

#[cfg(test)]
mod tests {
    use super::*;

    #[test]
    fn the_ends_of_the_ranges_are_written_too() {
        assert_eq!(dollars(i64::MIN), "-$9,223,372,036,854,775.808");
        assert_eq!(dollars(0), "$0.000");
        let more = i128::from(i64::MAX) + 1;
        assert_eq!(amount(more), "$9,223,372,036,854,775.808 (9223372036854775808 mills)");
        assert_eq!(ordinal(u64::MAX), "18,446,744,073,709,551,616th");
        assert_eq!([9, 11, 12, 21, 101].map(ordinal), ["10th", "12th", "13th", "22nd", "102nd"]);
        assert_eq!([0, 1, 2_000].map(|n: u64| count(n, "leg")), ["0 legs", "1 leg", "2,000 legs"]);
        assert_eq!([100, 123, 1_234].map(grouped), ["100", "123", "1,234"]);
    }
}
