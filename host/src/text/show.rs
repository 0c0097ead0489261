//! From a sheet to its text.

use std::fmt::Write;

use super::line::{leg_words, place_text};
use crate::sheet::Sheet;
use usm_values::Leg;

/// The sheet as text, in the format [`super::FORMAT`] tells of.
///
/// ```
/// use usm::{text, Claim, Sheet};
/// let sheet = Sheet { claims: vec![Claim { group: 1, margin: 1500 }], ..Sheet::default() };
/// assert_eq!(text::show(&sheet), "holdings\n\nplacement\n\nclaims\n  claim 1 1500\n");
/// assert_eq!(text::parse(&text::show(&sheet)), Ok(sheet));
/// ```
pub fn show(sheet: &Sheet) -> String {
    let mut text = show_held(sheet.account, &sheet.holdings);
    text.push_str(&format!("\n{}", show_placement(&sheet.placement)));
    text.push_str("\nclaims\n");
    for claim in &sheet.claims {
        line(&mut text, format!("claim {} {}", claim.group, claim.margin));
    }
    text
}

/// The holdings of this account, or of none for 0: a sheet's text without placement and claims.
///
/// ```
/// assert_eq!(usm::text::show_held(4711, &[]), "account 4711\n\nholdings\n");
/// assert_eq!(usm::text::show_held(0, &[]), "holdings\n");
/// ```
pub fn show_held(account: u64, holdings: &[Leg]) -> String {
    let account = match account {
        0 => String::new(),
        account => format!("account {account}\n\n"),
    };
    account + &show_holdings(holdings)
}

/// Holdings by themselves, as the first section of a sheet.
pub fn show_holdings(holdings: &[Leg]) -> String {
    let mut text = String::from("holdings\n");
    for leg in holdings {
        line(&mut text, leg_words(leg));
    }
    text
}

/// A placement by itself, as the second section of a sheet.
pub fn show_placement(placement: &[Leg]) -> String {
    let mut text = String::from("placement\n");
    for leg in placement {
        line(&mut text, format!("{:<8}  {}", place_text(leg.group), leg_words(leg)));
    }
    text
}

fn line(text: &mut String, words: String) {
    writeln!(text, "  {words}").expect("a string takes all text");
}
