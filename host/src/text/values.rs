//! Strikes, margins and dates as they are written.

use super::words::digits;
use usm_values::{is_expiry, GREATEST_AMOUNT, GREATEST_STRIKE};

/// What is expected where [`strike`] finds none.
pub const STRIKE: &str = "a strike in dollars from 0.001 to 99999.999 with up to three decimals";
/// What is expected where [`date`] finds none.
pub const EXPIRY: &str = "an expiry YYYY-MM-DD, a real date from 2000-01-01 to 2099-12-31";

/// What is expected where [`margin`] finds none.
pub fn a_margin() -> String {
    format!(
        "a margin in whole mills, 1000000 for 1,000 dollars, from 0 to {GREATEST_AMOUNT}, \
         or in dollars behind a `$`, as $1,000.000"
    )
}

/// A strike in dollars, as mills.
pub fn strike(word: &str) -> Option<u32> {
    u32::try_from(mills(word)?).ok().filter(|strike| (1..=GREATEST_STRIKE).contains(strike))
}

/// A margin, as mills: whole mills, or dollars behind a `$`, which may have commas between thousands.
pub fn margin(word: &str) -> Option<i64> {
    let margin = match word.strip_prefix('$') {
        Some(dollars) => mills(&without_commas(dollars)?)?,
        None => digits(word)?,
    };
    i64::try_from(margin).ok().filter(|margin| *margin <= GREATEST_AMOUNT)
}

/// Dollars with up to three decimals, as mills.
fn mills(word: &str) -> Option<u64> {
    let (dollars, decimals) = word.split_once('.').unwrap_or((word, "0"));
    if decimals.len() > 3 {
        return None;
    }
    let part = digits(&format!("{decimals:0<3}")).filter(|_| !decimals.is_empty())?;
    digits(dollars)?.checked_mul(1_000)?.checked_add(part)
}

/// A number whose commas, if it has any, stand before every third digit from the point.
fn without_commas(number: &str) -> Option<String> {
    let whole = number.split('.').next().unwrap_or_default();
    let mut thousands = whole.split(',');
    let first = thousands.next().unwrap_or_default();
    let in_threes = thousands.all(|three| three.len() == 3) && (1..=3).contains(&first.len());
    let good = !number.contains(',') || in_threes && !number[whole.len()..].contains(',');
    good.then(|| number.replace(',', ""))
}

/// YYYY-MM-DD as the number YYYYMMDD.
pub fn date(word: &str) -> Option<u32> {
    let shape: Vec<usize> = word.split('-').map(str::len).collect();
    let number = digits(&word.replace('-', "")).and_then(|number| u32::try_from(number).ok())?;
    (shape == [4, 2, 2] && is_expiry(number)).then_some(number)
}

#[cfg(test)]
mod tests {
    use super::*;

    #[test]
    fn strikes_are_dollars_that_become_mills() {
        assert_eq!(
            ["60", "60.5", "60.50", "60.500", "0.001", "99999.999"].map(strike),
            [Some(60_000), Some(60_500), Some(60_500), Some(60_500), Some(1), Some(99_999_999),]
        );
        for bad in
            ["", ".", "60.", ".5", "60.0001", "0", "0.000", "100000", "-1", "+1", "1e3", "6 0", "60.-1"]
        {
            assert_eq!(strike(bad), None, "{bad}");
        }
    }

    #[test]
    fn margins_are_mills_or_dollars() {
        assert_eq!(
            ["0", "1000000", "$0", "$1,000.000", "$1000", "$1,234,567.5", "$0.001"].map(margin),
            [0, 1_000_000, 0, 1_000_000, 1_000_000, 1_234_567_500, 1].map(Some)
        );
        assert_eq!(margin("$2,560,000,000,000,000.000"), Some(GREATEST_AMOUNT));
        assert_eq!(margin("2560000000000000000"), Some(GREATEST_AMOUNT));
        for bad in [
            "",
            "$",
            "1,000",
            "1000.00",
            "$1,00",
            "$,100",
            "$1000,000",
            "$1,0000",
            "$1,000.0000",
            "$ 1",
            "-1",
            "$-1",
            "$1.5,000",
            "1$",
            "$2,560,000,000,000,000.001",
            "2560000000000000001",
            "$99999999999999999999",
        ] {
            assert_eq!(margin(bad), None, "{bad}");
        }
    }

    #[test]
    fn dates_have_one_spelling() {
        assert_eq!(date("2012-02-29"), Some(20120229));
        for bad in
            ["2011-02-29", "20110521", "2011-5-21", "2011-05-211", "201-105-21", "1999-12-31", "2011/05/21"]
        {
            assert_eq!(date(bad), None, "{bad}");
        }
    }
}
