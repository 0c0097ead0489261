//! "Salvage a damaged file": document 02, [10].

use super::file::{self, Parts};
use super::tables;
use usm_values::block::{BLOCK_BYTES, LONGEST_FILE};
use usm_values::{Origin, Refusal, SalvageCounts, Table};

/// A whole block that passes 2, 3 and 4 by itself: what it is of, and its records.
struct Sound<'a> {
    origin: Origin,
    kind: Table,
    records: &'a [u8],
}

/// The first of 2, 3 and 4, with "numbering (bytes 6-9), order, short-block and limit rules set aside".
fn judge(block: &[u8]) -> Result<Sound<'_>, u8> {
    if !file::checks_fit(block) {
        return Err(2);
    }
    // Another form than the first block's is not 3 here: each is asked for the form of its own mark.
    let origin = file::origin(block);
    let header = file::header(block, origin.form).ok_or(3)?;
    let records = header.records_of(block);
    tables::check_fields(header.kind, records).map_err(|_| 4)?;
    Ok(Sound { origin, kind: header.kind, records })
}

/// What is kept, if anything is, and of each block that is dropped its index and number, in file order.
fn sort(bytes: &[u8]) -> (Option<Parts>, Vec<(u32, u8)>) {
    let mut kept: Option<Parts> = None;
    let mut dropped = Vec::new();
    for (index, block) in (0..).zip(bytes.chunks(BLOCK_BYTES)) {
        let judged = if block.len() < BLOCK_BYTES { Err(1) } else { judge(block) };
        let judged = judged.and_then(|sound| {
            // "Form and account are the first kept block's."
            let first = kept.as_ref().map_or(sound.origin, |parts| parts.origin);
            if file::is_of_another(sound.origin, first) {
                Err(20)
            } else {
                Ok(sound)
            }
        });
        match judged {
            Ok(Sound { origin, kind, records }) => {
                kept.get_or_insert_with(|| Parts::of(origin)).add(kind, records);
            }
            Err(number) => dropped.push((index, number)),
        }
    }
    (kept, dropped)
}

pub fn salvage(
    bytes: &[u8],
    out: &mut [u8],
    indices: &mut [u32],
    numbers: &mut [u8],
) -> Result<SalvageCounts, Refusal> {
    if bytes.is_empty() || bytes.len() > LONGEST_FILE {
        return Err(Refusal::new(1, 0, 0));
    }
    let (kept, dropped) = sort(bytes);
    let kept = kept.ok_or(Refusal::new(2, 0, 0))?;
    let tables = kept.tables();
    tables.check_sizes().map_err(|_| Refusal::new(3, 0, 0))?;
    let room = file::room(&tables, out)?;
    if indices.len() < dropped.len() || numbers.len() < dropped.len() {
        return Err(Refusal::new(17, 0, dropped.len() as u64));
    }
    file::fill(&tables, kept.origin, room);
    for (place, (index, number)) in dropped.iter().enumerate() {
        indices[place] = *index;
        numbers[place] = *number;
    }
    Ok(SalvageCounts { bytes: room.len(), dropped: dropped.len() })
}
