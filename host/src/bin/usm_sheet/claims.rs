//! Claims that are filled in by what the library says.

use std::ffi::OsStr;
use std::process::ExitCode;

use usm::numbers::{amount, count};
use usm::{Claim, Refusal, Sheet};

use crate::groups::no_spread;
use crate::input::{sheet_and_kind, Kind};
use crate::inputs::not_over_itself;
use crate::make::{made, stays_text, write};
use crate::program::{self, shown};

/// Writes the sheet with each group's margin as its claim, and tells what changed. Where a group has no margin
/// nothing is written, and it is told why.
pub fn claim(name: &OsStr, out_name: &OsStr, force: bool) -> Result<ExitCode, String> {
    not_over_itself(name, out_name)?;
    let (sheet, kind) = sheet_and_kind(name)?;
    let tell = |what: &str| program::tell(&format!("{}: {what}", shown(name)));
    let without: Vec<Refusal> = placed_groups(&sheet).filter_map(|group| sheet.margin(group).err()).collect();
    if !without.is_empty() {
        without.iter().for_each(|refusal| tell(&no_spread(&sheet, refusal)));
        return Ok(ExitCode::from(1));
    }
    let mut claimed = sheet.clone();
    claimed.claim_margins().map_err(|refusal| format!("{}: {}", shown(name), no_spread(&sheet, &refusal)))?;
    write(out_name, &made(&claimed, kind, name, out_name)?, force)?;
    if kind == (Kind::Text { comments: true }) && stays_text(kind, out_name) {
        tell("its comments are left out");
    }
    changes(&sheet.claims, &claimed.claims).iter().for_each(|change| tell(change));
    let total: i128 = claimed.claims.iter().map(|claim| i128::from(claim.margin)).sum();
    tell(&format!("{}, total margin {}", count(claimed.claims.len() as u64, "claim"), amount(total)));
    Ok(ExitCode::SUCCESS)
}

/// The groups up to the highest that is placed: each needs a claim.
fn placed_groups(sheet: &Sheet) -> impl Iterator<Item = u64> {
    1..=u64::from(sheet.placement.iter().map(|leg| leg.group).max().unwrap_or(0))
}

/// What became of each claim that is not as it was.
fn changes(before: &[Claim], after: &[Claim]) -> Vec<String> {
    let was = |group: u16| before.iter().find(|claim| claim.group == group).map(|claim| claim.margin);
    let told = |Claim { group, margin }: &Claim| match was(*group) {
        None => Some(format!("group {group} claims {}, and had no claim", amount(*margin))),
        Some(was) if was != *margin => {
            Some(format!("group {group} claims {}, and claimed {}", amount(*margin), amount(was)))
        }
        Some(_) => None,
    };
    let left_out = before.iter().enumerate().filter(|(place, claim)| {
        let again = before[..*place].iter().any(|other| other.group == claim.group);
        again || after.iter().all(|other| other.group != claim.group)
    });
    let left_out = left_out.map(|(_, claim)| {
        let Claim { group, margin } = claim;
        match after.iter().any(|other| other.group == *group) {
            true => format!("group {group} had a second claim, of {}, which is left out", amount(*margin)),
            false => format!(
                "the claim of group {group}, {}, is left out: no leg is placed in it",
                amount(*margin)
            ),
        }
    });
    after.iter().filter_map(told).chain(left_out).collect()
}
