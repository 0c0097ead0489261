//! "Show the table to the customer": document 02, [1].

use std::fmt::Write;

use super::tables::Records;
use super::{sheet, spread};
use usm_values::{Leg, Refusal};

/// The text of an accepted sheet, group by group.
pub fn of(records: &Records) -> Result<String, Refusal> {
    let groups = sheet::judge(records)?.groups;
    (1..=groups).map(|g| Ok(group(g, &spread::of_group(&records.placement, g)?))).collect()
}

/// `GROUP g margin`, then `strike net` for each distinct strike, ascending.
fn group(g: u64, legs: &[Leg]) -> String {
    let mut text = format!("GROUP {g} {}\n", spread::margin(legs));
    for row in spread::worksheet(legs) {
        writeln!(text, "{} {}", row.strike, row.net).expect("a String takes every line");
    }
    text
}
