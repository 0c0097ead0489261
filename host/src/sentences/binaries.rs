//! Refusals 4 and 25 of credit event binaries: which number is out of range, or which option expires too early.

use crate::text::date_text;
use usm_values::numbers::grouped;
use usm_values::{is_expiry, Binary, LongBinary, Reason, Refusal, GREATEST_SPREAD, MOST_CONTRACTS};

/// The sentence of a refusal that [`crate::binary_margin`] answered to these numbers.
///
/// ```
/// use usm::{binary_margin, sentences, Side};
/// let refusal = binary_margin(Side::Long, 250, 20110315, 20110314, 10).unwrap_err();
/// assert_eq!(
///     sentences::of_binary(250, 20110315, 20110314, 10, &refusal),
///     "the option expires on 2011-03-14, before the valuation date, 2011-03-15"
/// );
/// ```
pub fn of_binary(spread: u64, valuation: u64, expiry: u64, contracts: u64, refusal: &Refusal) -> String {
    let binary = Binary { reference: 0, spread, expiry, contracts };
    sentence(&Judged { name: "the option", with_valuation: true, valuation, binary }, refusal)
}

/// The sentence of a refusal that [`crate::binary_pair`] answered to these positions.
pub fn of_pair(valuation: u64, long: &LongBinary, short: &Binary, refusal: &Refusal) -> String {
    match refusal.place {
        0 => sentence(
            &Judged { name: "the long", with_valuation: true, valuation, binary: long.binary },
            refusal,
        ),
        _ => {
            sentence(&Judged { name: "the short", with_valuation: false, valuation, binary: *short }, refusal)
        }
    }
}

/// A position as it is judged: the valuation date with the only one, or with the long.
struct Judged {
    name: &'static str,
    with_valuation: bool,
    valuation: u64,
    binary: Binary,
}

fn sentence(judged: &Judged, refusal: &Refusal) -> String {
    let Judged { name, valuation, binary, .. } = judged;
    let faults = match refusal.reason() {
        Some(Reason::FieldOutOfRange) => out_of_range(judged),
        Some(Reason::ExpiryBeforeValuation) => {
            let [expiry, valuation] = [binary.expiry, *valuation].map(|date| date_text(date as u32));
            vec![format!("{name} expires on {expiry}, before the valuation date, {valuation}")]
        }
        _ => Vec::new(),
    };
    match faults.as_slice() {
        [] => refusal.to_string(),
        faults => faults.join("; "),
    }
}

fn out_of_range(judged: &Judged) -> Vec<String> {
    let Judged { name, with_valuation, valuation, binary } = judged;
    let is_date = |date| u32::try_from(date).map_or(false, is_expiry);
    let a_date = || String::from("a real date from 20000101 to 20991231");
    let a_count = (1..=u64::from(MOST_CONTRACTS)).contains(&binary.contracts);
    let spread_says = format!("0 to {} basis points", grouped(GREATEST_SPREAD));
    let ranges = [
        (String::from("the valuation date"), *valuation, a_date(), !with_valuation || is_date(*valuation)),
        (format!("{name}'s spread"), binary.spread, spread_says, binary.spread <= GREATEST_SPREAD),
        (format!("{name}'s expiry"), binary.expiry, a_date(), is_date(binary.expiry)),
        (
            format!("{name}'s count of contracts"),
            binary.contracts,
            format!("1 to {}", grouped(MOST_CONTRACTS)),
            a_count,
        ),
    ];
    ranges
        .into_iter()
        .filter(|(.., holds)| !holds)
        .map(|(what, value, says, _)| format!("{what} is {value} and must be {says}"))
        .collect()
}
