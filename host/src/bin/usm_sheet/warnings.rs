//! What is made all the same, and warned of: claims that look like dollars taken for mills.

use std::ffi::OsStr;

use usm::numbers::{amount, count, dollars};
use usm::{Claim, Sheet};

use crate::program::{self, shown};

const MILLS_IN_DOLLAR: i64 = 1_000;

/// Warns of claims that are the margin's dollars in mills, and of others below a dollar, beside strikes in dollars.
pub fn tell_of_small(name: &OsStr, sheet: &Sheet) {
    if sheet.holdings.is_empty() && sheet.placement.is_empty() {
        return;
    }
    for claim in sheet.claims.iter().filter(|claim| claim.margin > 0) {
        let due = sheet.margin(u64::from(claim.group)).ok();
        if looks_like_dollars(claim.margin, due) {
            warn(name, claim, due);
        }
    }
}

/// A claim that is what the group needs is none, however small.
fn looks_like_dollars(margin: i64, due: Option<i64>) -> bool {
    let in_dollars = margin.checked_mul(MILLS_IN_DOLLAR);
    due != Some(margin) && (margin < MILLS_IN_DOLLAR || (due.is_some() && due == in_dollars))
}

fn warn(name: &OsStr, Claim { group, margin }: &Claim, due: Option<i64>) {
    let due = due.map_or(String::new(), |due| format!(", and its margin is {}", amount(due)));
    program::tell(&format!(
        "{}: warning: group {group} claims {}, which is {}{due}; strikes are in dollars, and claims in mills, or in \
         dollars behind a `$`, as $1,000.000",
        shown(name),
        count(*margin as u64, "mill"),
        dollars(*margin),
    ));
}
