//! Why a list of option symbols is refused, holdings that are to become one, or the roots of both.

use super::fields;
use super::lines::{field_faults, form_fault};
use crate::text::{escaped_bytes, leg_text, line_of_bytes, terms_text};
use usm_values::numbers::{count, ordinal};
use usm_values::{
    padded_root, Leg, Reason, Refusal, Root, Table, GREATEST_UNIT_SIZE, LIST_TABLE, MOST_LEGS, MOST_LINES,
    MOST_ROOTS, ROOTS_TABLE, ROOT_NAME_BYTES,
};

/// The sentence of a refusal that [`crate::holdings_of_list`] answered.
///
/// ```
/// use usm::{holdings_of_list, sentences, text};
/// let roots = text::parse_roots("AAPL american listed unit 100 physical underlying 8")?;
/// let list = b"AAPL  110521C00060000 L 0\n";
/// let refusal = holdings_of_list(&roots, list).unwrap_err();
/// assert_eq!(
///     sentences::of_import(&roots, list, &refusal),
///     "line 1: AAPL  110521C00060000 L 0: contracts are 1 to 100,000, without a leading zero"
/// );
/// # Ok::<(), text::TextErrors>(())
/// ```
pub fn of_import(roots: &[Root], list: &[u8], refusal: &Refusal) -> String {
    let mut lines = list.split_inclusive(|byte| *byte == b'\n');
    let sentence = match (refusal.reason(), refusal.table) {
        (Some(Reason::RootsIllFormed), ROOTS_TABLE) => of_roots(roots, refusal.place),
        (Some(Reason::WrongSize), _) => {
            Some(format!("the list has {}, more than {MOST_LINES}", count(lines.count() as u64, "line")))
        }
        (Some(_), LIST_TABLE) => {
            let place = usize::try_from(refusal.place).unwrap_or(usize::MAX);
            lines.nth(place).map(|line| of_line(line, refusal))
        }
        _ => None,
    };
    sentence.unwrap_or_else(|| refusal.to_string())
}

/// The sentence of a refusal of just this line, of whatever list. Its newline, if it has one, belongs to it.
pub fn of_line(line: &[u8], refusal: &Refusal) -> String {
    let (text, ended) = match line.strip_suffix(b"\n") {
        Some(text) => (text, true),
        None => (line, false),
    };
    let fault = match refusal.reason() {
        Some(Reason::LineMalformed) => form_fault(text, ended),
        Some(Reason::FieldOutOfRange) => field_faults(text),
        Some(Reason::NotInRoots) => text
            .get(..ROOT_NAME_BYTES)
            .map(|root| format!("the root {} is not in the table of roots", escaped_bytes(root).trim_end())),
        _ => None,
    };
    let number = u128::from(refusal.place) + 1;
    match fault {
        Some(fault) if text.is_empty() => format!("line {number}: {fault}"),
        Some(fault) => format!("line {number}: {}: {fault}", line_of_bytes(text)),
        None => refusal.to_string(),
    }
}

/// The sentence of a refusal that [`crate::list_of_holdings`] answered.
pub fn of_export(roots: &[Root], holdings: &[Leg], refusal: &Refusal) -> String {
    let place = usize::try_from(refusal.place).unwrap_or(usize::MAX);
    let sentence = match (refusal.reason(), refusal.table) {
        (Some(Reason::RootsIllFormed), ROOTS_TABLE) => of_roots(roots, refusal.place),
        (Some(Reason::WrongSize), _) => Some(format!(
            "the holdings have {}, more than {MOST_LEGS}",
            count(holdings.len() as u64, "record")
        )),
        (Some(reason), 1) => holdings.get(place).and_then(|leg| of_record(leg, refusal.place, reason)),
        _ => None,
    };
    sentence.unwrap_or_else(|| refusal.to_string())
}

/// A record that no line of a list says.
fn of_record(leg: &Leg, place: u64, reason: Reason) -> Option<String> {
    let which = format!("the {} record of the holdings (`{}`)", ordinal(place), leg_text(leg));
    match reason {
        Reason::FieldOutOfRange => fields::of_record(Table::Holdings, &leg.to_bytes(), place)
            .or_else(|| leg.paid.then(|| format!("{which} is marked as `paid`, and a list cannot say that"))),
        Reason::NotInRoots => {
            Some(format!("{which}: no root stands for its terms, {}", terms_text(&root_for(leg))))
        }
        _ => None,
    }
}

/// The terms of a leg as those of a root without a name.
fn root_for(leg: &Leg) -> Root {
    Root {
        name: [b' '; ROOT_NAME_BYTES],
        style: leg.style,
        market: leg.market,
        unit_size: leg.unit_size,
        settlement: leg.settlement,
        underlying: leg.underlying,
    }
}

/// What is wrong with a table of roots, at this one.
fn of_roots(roots: &[Root], place: u64) -> Option<String> {
    if roots.is_empty() {
        return Some(format!("the table of roots is empty; it has 1 to {MOST_ROOTS} roots"));
    }
    if roots.len() > MOST_ROOTS {
        return Some(format!("the table has {}, more than {MOST_ROOTS}", count(roots.len() as u64, "root")));
    }
    let at = usize::try_from(place).ok()?;
    let (root, earlier) = (roots.get(at)?, &roots[..at]);
    let fault = range_fault(root).or_else(|| repeat(root, earlier))?;
    let name = escaped_bytes(&root.name);
    Some(format!("the {} root (`{} {}`) {fault}", ordinal(place), name.trim_end(), terms_text(root)))
}

fn range_fault(root: &Root) -> Option<String> {
    if padded_root(root.text()) != Some(root.name) {
        Some(String::from(
            "has a name that is not 1 to 6 of A-Z and 0-9, a letter first, with blanks behind it",
        ))
    } else if !(1..=GREATEST_UNIT_SIZE).contains(&root.unit_size) {
        Some(format!("has the unit size {}, which must be 1 to {GREATEST_UNIT_SIZE}", root.unit_size))
    } else {
        (root.underlying == 0).then(|| format!("has the underlying 0, which must be 1 to {}", u32::MAX))
    }
}

/// The first of the earlier roots that has the same name or the same terms.
fn repeat(root: &Root, earlier: &[Root]) -> Option<String> {
    let place = |same: &dyn Fn(&Root) -> bool| earlier.iter().position(same).map(|at| ordinal(at as u64));
    let same_terms = |other: &Root| Root { name: root.name, ..*other } == *root;
    let named = place(&|other| other.name == root.name).map(|at| format!("has the name of the {at}"));
    named.or_else(|| {
        let at = place(&same_terms)?;
        Some(format!("has the terms of the {at}; no two roots may stand for the same"))
    })
}
