//! A day's fills over yesterday's holdings.

use std::ffi::OsStr;
use std::process::ExitCode;

use usm::numbers::{count, grouped};
use usm::{play as play_over, sentences, Fill, Played, Refusal, Sheet};

use crate::input::{fills_in, holdings_in, is_csv};
use crate::inputs::{not_beside_json, tell_account_left_out, tell_left_out, two_inputs};
use crate::json::{refused, Object};
use crate::make::{made_holdings, write};
use crate::output::print;
use crate::program::{self, shown};

/// The names of what is read and written.
pub struct Names<'a> {
    pub holdings: &'a OsStr,
    pub fills: &'a OsStr,
    pub out: &'a OsStr,
}

/// Writes the holdings that come out, of the same account; a refused fill has a sentence each.
pub fn play(names: &Names, force: bool, json: bool) -> Result<ExitCode, String> {
    two_inputs([("holdings", names.holdings), ("fills", names.fills)], names.out)?;
    not_beside_json(json, names.out)?;
    let (yesterday, fills) = (holdings_in(names.holdings)?, fills_in(names.fills)?);
    let played = play_over(&yesterday.holdings, &fills).map_err(|refusal| {
        let sentence = sentences::of_fills(&yesterday.holdings, &fills, &refusal);
        format!("{}: refusal {}: {sentence}", shown(names.holdings), refusal.number)
    })?;
    let made = made_holdings(yesterday.account, played.holdings.clone(), names.holdings, names.out)?;
    write(names.out, &made, force)?;
    tell_lost(names, &yesterday);
    match json {
        true => print(&object(names, &yesterday, &fills, &played).line())?,
        false => tell(names, &yesterday, &fills, &played),
    };
    Ok(ExitCode::from(u8::from(!played.refused.is_empty())))
}

/// Each refused fill with its sentence.
fn sentences_of<'a>(
    yesterday: &'a Sheet,
    fills: &'a [Fill],
    played: &'a Played,
) -> impl Iterator<Item = (&'a Refusal, String)> {
    let refused = played.refused.iter();
    refused.map(|refusal| (refusal, sentences::of_fills(&yesterday.holdings, fills, refusal)))
}

/// What of the sheet is not in what is written; the object has no key for it, and so it is told beside one, too.
fn tell_lost(names: &Names, yesterday: &Sheet) {
    tell_left_out(names.holdings, yesterday);
    if is_csv(names.out) {
        tell_account_left_out(names.holdings, yesterday.account);
    }
}

fn tell(names: &Names, yesterday: &Sheet, fills: &[Fill], played: &Played) -> ExitCode {
    for (refusal, sentence) in sentences_of(yesterday, fills, played) {
        program::tell(&format!("{}: refusal {}: {sentence}", shown(names.fills), refusal.number));
    }
    let refused = played.refused.len();
    program::tell(&format!(
        "{} played, {} refused; the holdings have {}",
        grouped(fills.len() - refused),
        grouped(refused),
        count(played.holdings.len() as u64, "record")
    ));
    ExitCode::SUCCESS
}

fn object(names: &Names, yesterday: &Sheet, fills: &[Fill], played: &Played) -> Object {
    let refusals =
        sentences_of(yesterday, fills, played).map(|(refusal, sentence)| refused(refusal, &sentence));
    Object::of(names.holdings)
        .named("fills", names.fills)
        .named("out", names.out)
        .with("account", Some(yesterday.account).filter(|account| *account != 0))
        .with("records", played.holdings.len())
        .with("played", fills.len() - played.refused.len())
        .with("refused", refusals.collect::<Vec<Object>>())
}
