//! What was dropped from a damaged file, what is left out with it, and why a file cannot be salvaged.

use super::{blocks, fields, size, strangers};
use crate::salvage::{salvage_file, Dropped};
use usm_values::block::{account_of, ACCOUNT_AT, BLOCK_BYTES, RECORDS_AT, RECORDS_IN_BLOCK};
use usm_values::numbers::{count, ordinal};
use usm_values::{Form, Origin, Reason, Refusal, Table, RECORD_BYTES};

/// Why each block that [`salvage_file`] dropped from these bytes was dropped, a sentence each.
///
/// ```
/// use usm::{salvage_file, sentences, Claim, Sheet};
/// let claims = (1..=20).map(|group| Claim { group, margin: 0 }).collect();
/// let mut file = Sheet { claims, ..Sheet::default() }.to_file()?;
/// file[600] ^= 1;
/// let dropped = salvage_file(&file)?.dropped;
/// let sentences = sentences::of_dropped(&file, &dropped);
/// assert_eq!(sentences, ["the 2nd of 2 blocks was dropped: its check sums differ (2)"]);
/// # Ok::<(), usm::Refusal>(())
/// ```
pub fn of_dropped(bytes: &[u8], dropped: &[Dropped]) -> Vec<String> {
    let all = blocks_of(bytes);
    let is_kept = |index: &usize| dropped.iter().all(|block| block.index != *index);
    let first =
        bytes.chunks_exact(BLOCK_BYTES).zip(0..).find(|(_, index)| is_kept(index)).map(|(block, _)| block);
    let listed = dropped.iter().filter_map(|block| Some((block, *all.get(block.index)?)));
    listed
        .map(|(Dropped { index, reason }, block)| {
            let which = format!("the {} of {}", ordinal(*index as u64), count(all.len() as u64, "block"));
            format!("{which} was dropped: {} ({})", fault(block, *reason, first), reason.number())
        })
        .collect()
}

/// The blocks, the last of which may be torn.
fn blocks_of(bytes: &[u8]) -> Vec<&[u8]> {
    bytes.chunks(BLOCK_BYTES).collect()
}

fn fault(block: &[u8], reason: Reason, first_kept: Option<&[u8]>) -> String {
    let own = Form::of_block(block).unwrap_or(Form::Old);
    let fault = match reason {
        _ if block.len() < BLOCK_BYTES => {
            Some(format!("it is torn, with {} of {BLOCK_BYTES}", count(block.len() as u64, "byte")))
        }
        Reason::ChecksDiffer => Some(String::from("its check sums differ")),
        Reason::BlockOutOfForm => {
            let fault =
                blocks::mark_fault(block, own, FIRST_KEPT).or_else(|| blocks::header_fault(block, own));
            fault.map(|fault| format!("it is out of form: {fault}"))
        }
        Reason::FieldOutOfRange => blocks::table_of(block[4]).and_then(|kind| fields::in_block(block, kind)),
        _ => first_kept.and_then(|first| foreign(block, own, first)),
    };
    fault.unwrap_or_else(|| String::from("it is not sound"))
}

const FIRST_KEPT: &str = "first block that was kept";

/// Refusal 20: no account in the new form, or another form or account than the first that was kept.
fn foreign(block: &[u8], own: Form, first_kept: &[u8]) -> Option<String> {
    let account = || blocks::account_fault(block, first_kept, FIRST_KEPT).map(|fault| format!("it {fault}"));
    if own == Form::New && account_of(block) == 0 {
        return account();
    }
    blocks::mark_fault(block, Form::of_block(first_kept)?, FIRST_KEPT).or_else(account)
}

/// The records that went with the dropped blocks, as far as these tell it honestly; nothing if none was dropped.
///
/// A header is taken at its word where the sums fit and the form is good. Otherwise it has to agree with what
/// stands behind it: no record is all zero, and no byte stands in an unused place.
pub fn of_left_out(bytes: &[u8], dropped: &[Dropped]) -> Option<String> {
    let all = blocks_of(bytes);
    let told: Vec<Option<(Table, usize)>> =
        dropped.iter().map(|block| contents(all.get(block.index)?, block.reason)).collect();
    let of_kind = |kind| -> usize {
        told.iter().flatten().filter(|(table, _)| *table == kind).map(|(_, records)| records).sum()
    };
    let mut left_out: Vec<String> = Table::ALL
        .into_iter()
        .map(|kind| (kind, of_kind(kind)))
        .filter(|(_, records)| *records > 0)
        .map(amount)
        .collect();
    match told.iter().filter(|told| told.is_none()).count() {
        0 => {}
        1 => left_out.push(String::from("what 1 block held whose header does not tell")),
        untold => left_out.push(format!("what {untold} blocks held whose headers do not tell")),
    }
    (!left_out.is_empty()).then(|| format!("left out: {}", left_out.join(", ")))
}

fn amount((kind, records): (Table, usize)) -> String {
    let records = records as u64;
    match kind {
        Table::Claims => count(records, "claim"),
        kind => format!("{} of the {}", count(records, "record"), blocks::name(kind)),
    }
}

/// The kind of a dropped block and how many records it had.
fn contents(block: &[u8], reason: Reason) -> Option<(Table, usize)> {
    Form::of_block(block)?;
    let (kind, records) = (blocks::table_of(*block.get(4)?)?, usize::from(*block.get(5)?));
    let sound = matches!(reason, Reason::FieldOutOfRange | Reason::WrongAccount);
    let places = block.get(RECORDS_AT..ACCOUNT_AT.min(block.len())).unwrap_or(&[]).chunks_exact(RECORD_BYTES);
    let is_used = |place: &[u8]| place.iter().any(|byte| *byte != 0);
    let agrees = (1..=RECORDS_IN_BLOCK).contains(&records)
        && places.enumerate().all(|(place, bytes)| is_used(bytes) == (place < records));
    (sound || agrees).then_some((kind, records))
}

/// The sentence of a refusal that [`salvage_file`] answered for these bytes.
///
/// ```
/// use usm::{salvage_file, sentences};
/// let marks = b"USM1".repeat(275);
/// let refusal = salvage_file(&marks).unwrap_err();
/// assert_eq!(
///     sentences::of_salvage(&marks, &refusal),
///     "nothing can be kept: all 3 blocks are damaged, torn, out of form, or have a field out of range or no account"
/// );
/// ```
pub fn of_salvage(bytes: &[u8], refusal: &Refusal) -> String {
    let sentence = match refusal.reason() {
        Some(Reason::WrongSize) => strangers::sentence(bytes).or_else(|| size::sentence(bytes)),
        Some(Reason::ChecksDiffer) => strangers::sentence(bytes).or_else(|| Some(nothing_kept(bytes))),
        Some(Reason::BlockOutOfForm) => limit_passed(bytes),
        _ => None,
    };
    sentence.unwrap_or_else(|| refusal.to_string())
}

fn nothing_kept(bytes: &[u8]) -> String {
    match blocks_of(bytes).len() {
        0 | 1 if bytes.len() < BLOCK_BYTES => {
            let length = count(bytes.len() as u64, "byte");
            format!("nothing can be kept: the file has {length}, less than one block of {BLOCK_BYTES}")
        }
        1 => String::from(
            "nothing can be kept: its one block is damaged, out of form, or has a field out of range or no account",
        ),
        blocks => format!(
            "nothing can be kept: all {blocks} blocks are damaged, torn, out of form, or have a field out of \
             range or no account"
        ),
    }
}

/// The first kind of which the blocks that can be kept have too many records.
fn limit_passed(bytes: &[u8]) -> Option<String> {
    let origin = |block: &[u8]| match Form::of_block(block) {
        Some(Form::New) => Origin::new(account_of(block)),
        _ => Origin::OLD,
    };
    // A block by itself passes no limit.
    let sound: Vec<&[u8]> =
        bytes.chunks_exact(BLOCK_BYTES).filter(|block| salvage_file(block).is_ok()).collect();
    let kept = || sound.iter().filter(|block| origin(block) == origin(sound[0]));
    Table::ALL.into_iter().find_map(|kind| {
        let of_kind = kept().filter(|block| u64::from(block[4]) == kind.number());
        let records: usize = of_kind.map(|block| usize::from(block[5])).sum();
        let most = kind.most_records();
        (records > most).then(|| {
            format!(
                "the blocks that can be kept have {}, more than {most}; blocks of two files may be joined, \
                 or one may stand there twice",
                amount((kind, records))
            )
        })
    })
}
