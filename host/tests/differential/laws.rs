//! What document 01 promises about margins, tried on the library's own answers, without
//! the model.

use std::collections::{BTreeMap, BTreeSet};
use std::fmt::Display;

use usm::{
    check_file, check_table, export, import, margin, move_to_new, move_to_old, play_fills, Claim, Form, Leg,
    OptionType, Origin, PlayCounts, Refusal, Sheet, Side, Style, Table, Tables, LONGEST_LIST, MOST_WORK,
    RECORD_BYTES,
};
use usm_kit::fields::{get, records, GROUP};

use crate::files;
use crate::fills::Day;
use crate::random::Random;

/// d times a leg's value at the price n/d.
fn value(leg: &Leg, n: i128, d: i128) -> i128 {
    let strike = d * i128::from(leg.strike);
    let intrinsic = match leg.option_type {
        OptionType::Call => (n - strike).max(0),
        OptionType::Put => (strike - n).max(0),
    };
    let worth = i128::from(leg.units()) * intrinsic;
    match leg.side {
        Side::Long => worth,
        Side::Short => -worth,
    }
}

/// At any price n/d, chosen for each underlying by itself, an accepted account loses no
/// more than the total, and a group no more than its margin.
pub fn margins_cover_every_price(case: &dyn Display, random: &mut Random, sheet: &Sheet) {
    let total = i128::from(sheet.check().expect("an accepted sheet").total);
    let d = i128::from(random.between(1, 7));
    let mut prices: BTreeMap<u32, i128> = BTreeMap::new();
    for leg in &sheet.holdings {
        // Near a strike, where nets turn; or anywhere, far above all strikes too.
        let price = match random.below(3) {
            0 => d * i128::from(leg.strike) + i128::from(random.between(0, 8)) - 4,
            1 => i128::from(random.next() >> random.between(24, 63)),
            _ => i128::from(random.between(0, 200_000)),
        };
        prices.entry(leg.underlying).or_insert(price.max(0));
    }
    let net: i128 = sheet.holdings.iter().map(|leg| value(leg, prices[&leg.underlying], d)).sum();
    assert!(-net <= d * total, "{case}: at {prices:?} over {d} the account loses {} of {total}", -net);
    for claim in &sheet.claims {
        let legs = sheet.placement.iter().filter(|leg| leg.group == claim.group);
        let net: i128 = legs.map(|leg| value(leg, prices[&leg.underlying], d)).sum();
        assert!(-net <= d * i128::from(claim.margin), "{case}: group {} is not covered", claim.group);
    }
}

/// Cut off before the leg that is pointed at, a placement does not have this refusal; cut off behind it, it has it,
/// unless 13 is hidden by units that later legs would balance.
pub fn the_leg_breaks_it(case: &dyn Display, placement: &[u8], group: u64, refusal: &Refusal) {
    let at = refusal.place as usize;
    assert_eq!(get(placement, at, GROUP), group, "{case}: record {at} is no leg of group {group}");
    let cut_off = |records: usize| margin(&placement[..records * RECORD_BYTES], group);
    let before = cut_off(at).err().map(|refusal| refusal.number);
    assert_ne!(before, Some(refusal.number), "{case}: the legs before record {at} break it");
    let behind = cut_off(at + 1).expect_err("the legs up to and with it are no spread");
    let hidden = refusal.number == 13 && [11, 12].contains(&behind.number);
    assert!(hidden || behind == *refusal, "{case}: {behind:?} up to and with record {at}");
}

/// No accepted sheet is more work than the most there is.
pub fn work_is_within_its_limit(case: &dyn Display, sheet: &Sheet) {
    let work = sheet.check().expect("an accepted sheet").work;
    assert!(work <= MOST_WORK, "{case}: {work}");
    assert!(work >= sheet.placement.iter().filter(|leg| leg.group > 0).count() as u64, "{case}: {work}");
}

/// No margin of an accepted sheet is larger than it must be: it is 0, or the loss at some strike, or what
/// a European long box needs.
pub fn margins_are_reached(case: &dyn Display, sheet: &Sheet) {
    for Claim { group, margin } in &sheet.claims {
        let worksheet = sheet.worksheet(u64::from(*group)).expect("a spread");
        let legs: Vec<&Leg> = sheet.placement.iter().filter(|leg| leg.group == *group).collect();
        let reached = *margin == 0
            || worksheet.iter().any(|(_, net)| -net == *margin)
            || *margin == half_of_a_box(&legs, &worksheet);
        assert!(reached, "{case}: group {group}: {margin} is the loss at no strike of {worksheet:?}");
    }
}

/// A file moved to the other form and back is the same file, and on its way it has the same verdict.
pub fn moves_go_round(case: &dyn Display, tables: &Tables, origin: Origin) {
    let file = files::of(tables, origin);
    if file.is_empty() {
        return;
    }
    let [mut there, mut back] = [vec![0; file.len()], vec![0; file.len()]];
    let moved = |file: &[u8], form: Form, account: u64, out: &mut [u8]| match form {
        Form::New => move_to_new(file, account, out),
        Form::Old => move_to_old(file, out),
    };
    let other = if origin.form == Form::Old { Form::New } else { Form::Old };
    assert_eq!(moved(&file, other, 4711, &mut there), Ok(file.len()), "{case}: the move");
    assert_eq!(check_file(&there), check_file(&file), "{case}: a moved file has its verdict");
    assert_eq!(moved(&there, origin.form, origin.account, &mut back), Ok(file.len()), "{case}: the way back");
    assert!(back == file, "{case}: a file moved there and back is another");
}

/// Holdings that come out are good holdings, one record for each line and side; played over by no fills they
/// stay as they are.
pub fn a_day_of_no_fills_changes_nothing(case: &dyn Display, day: &Day) {
    let count = records(&day.fills);
    let (mut result, mut indices, mut numbers) = (vec![0; 8192], vec![0; count], vec![0; count]);
    if let Ok(counts) = play_fills(&day.holdings, &day.fills, &mut result, &mut indices, &mut numbers) {
        result.truncate(counts.records * RECORD_BYTES);
        assert_eq!(check_table(Table::Holdings, &result), Ok(counts.records), "{case}");
        let unmarked = result.chunks_exact(RECORD_BYTES).all(|record| record[25] == 0);
        assert!(unmarked, "{case}: what comes out has no mark");
        // Side and line are all but contracts: bytes 0 to 19, and the settlement.
        let lots: BTreeSet<(&[u8], u8)> =
            result.chunks_exact(RECORD_BYTES).map(|record| (&record[..20], record[24])).collect();
        assert_eq!(lots.len(), counts.records, "{case}: a line and side stands in one record");
        let mut again = vec![0; 8192];
        let no_fills = play_fills(&result, &[], &mut again, &mut [], &mut []);
        assert_eq!(no_fills, Ok(PlayCounts { records: counts.records, refused: 0 }), "{case}");
        assert!(again[..result.len()] == result, "{case}: no fills change the holdings");
    }
}

/// A sheet from before the paid mark, with some of its marks or none, is accepted after the pass with the same
/// groups and total; a second pass changes nothing more.
pub fn the_pass_takes_old_sheets(case: &dyn Display, random: &mut Random, sheet: &Sheet) {
    let accepted = sheet.check();
    let mut old = sheet.clone();
    let mut unmarked = 0;
    for leg in old.placement.iter_mut().filter(|leg| leg.group == 0) {
        leg.paid = random.one_in(4);
        unmarked += usize::from(!leg.paid);
    }
    if unmarked > 0 {
        assert_eq!(old.check().map_err(|refusal| refusal.number), Err(15), "{case}: unpaid and unplaced");
    }
    assert_eq!(old.mark_paid(), Ok(unmarked), "{case}: the pass");
    assert_eq!(old.check(), accepted, "{case}: the verdict after the pass");
    let marked = old.clone();
    assert_eq!((old.mark_paid(), &old), (Ok(0), &marked), "{case}: the second pass");
}

/// A list that is taken makes good holdings without marks, and they are written as the same list.
pub fn lists_go_round(case: &dyn Display, roots: &[u8], list: &[u8]) {
    let (mut holdings, mut back) = (vec![0; Table::Holdings.most_bytes()], vec![0; LONGEST_LIST]);
    if let Ok(records) = import(roots, list, &mut holdings) {
        holdings.truncate(records * RECORD_BYTES);
        assert_eq!(check_table(Table::Holdings, &holdings), Ok(records), "{case}");
        assert!(holdings.chunks_exact(RECORD_BYTES).all(|record| record[25] == 0), "{case}: no mark");
        assert_eq!(export(roots, &holdings, &mut back), Ok(list.len()), "{case}: the way back");
        assert!(&back[..list.len()] == list, "{case}: a list taken and written is another");
    }
}

/// Holdings that are written as a list are what the list makes, whatever the room past it.
pub fn holdings_go_round(case: &dyn Display, roots: &[u8], holdings: &[u8]) {
    let (mut list, mut back) = (vec![0; LONGEST_LIST], vec![0; holdings.len()]);
    if let Ok(length) = export(roots, holdings, &mut list) {
        let records = holdings.len() / RECORD_BYTES;
        assert_eq!(import(roots, &list[..length], &mut back), Ok(records), "{case}: the way back");
        assert!(back == holdings, "{case}: holdings written and taken are others");
    }
}

/// The cash that a group requires covers it at each of its strikes, and nothing less does.
pub fn cash_is_the_worst_loss(case: &dyn Display, sheet: &Sheet, group: u64) {
    if let Ok(cash) = sheet.cash(group) {
        let worksheet = sheet.worksheet(group).expect("a spread");
        let worst = worksheet.iter().map(|(_, net)| -net).max().unwrap_or(0);
        assert_eq!(cash, worst.max(0), "{case}: group {group}, {worksheet:?}");
    }
}

/// What European options of one expiry need that gain the same at their only two strikes: half of that.
fn half_of_a_box(legs: &[&Leg], worksheet: &[(u32, i64)]) -> i64 {
    let alike = legs.iter().all(|leg| leg.style == Style::European && leg.expiry == legs[0].expiry);
    match worksheet {
        [(_, low), (_, high)] if alike && low == high && *low > 0 => low - low / 2,
        _ => 0,
    }
}
