//! Refusal 4: which field is out of range, and what stands in it.

use crate::text::raw_text;
use usm_values::block::{Header, BLOCK_BYTES, RECORDS_AT};
use usm_values::fields::*;
use usm_values::numbers::ordinal;
use usm_values::{
    is_expiry, Refusal, Table, GREATEST_AMOUNT, GREATEST_STRIKE, GREATEST_UNIT_SIZE, MOST_CLAIMS,
    MOST_CONTRACTS, RECORD_BYTES,
};

/// A field, what it is called, and what may stand in it.
struct Range {
    name: &'static str,
    field: Field,
    says: String,
    holds: fn(u64) -> bool,
}

pub fn sentence(file: &[u8], refusal: &Refusal) -> Option<String> {
    let table = Table::ALL.into_iter().find(|table| table.number() == refusal.table)?;
    of_record(table, &record(file, table, refusal.place)?, refusal.place)
}

/// The fields of a record, at this place of its table, that are out of range.
pub fn of_record(table: Table, record: &[u8; RECORD_BYTES], place: u64) -> Option<String> {
    let which = match table {
        Table::Holdings => "record of the holdings",
        Table::Placement => "record of the placement",
        Table::Claims => "claim",
    };
    faults(table, record).map(|faults| format!("the {} {which} {faults}", ordinal(place)))
}

/// The first record of one block, whose sums and form are good, that has a field out of range.
pub fn in_block(block: &[u8], table: Table) -> Option<String> {
    (0..u64::from(Header::of(block).records)).find_map(|place| {
        let faults = faults(table, &record(block, table, place)?)?;
        Some(format!("its {} record {faults}", ordinal(place)))
    })
}

/// The text of a record, and what is out of range in it, if anything is.
fn faults(table: Table, record: &[u8; RECORD_BYTES]) -> Option<String> {
    let faults: Vec<String> = ranges(table)
        .into_iter()
        .map(|range| (get(record, 0, range.field), range))
        .filter(|(value, range)| !(range.holds)(*value))
        .map(|(value, range)| format!("its {} is {value} and must be {}", range.name, range.says))
        .collect();
    let text = record_text(table, record);
    (!faults.is_empty()).then(|| format!("(`{text}`): {}", faults.join("; ")))
}

/// The words of a record, whether or not its fields are in range.
fn record_text(table: Table, record: &[u8; RECORD_BYTES]) -> String {
    match table {
        Table::Holdings | Table::Placement => raw_text(record),
        Table::Claims => format!("claim {} {}", get(record, 0, GROUP), get(record, 0, CLAIM_MARGIN)),
    }
}

/// The words of each record of one table, in a file whose blocks are in form; their fields need not be in range.
pub fn record_texts(file: &[u8], table: Table) -> Vec<String> {
    records(file, table).map(|record| record_text(table, &record)).collect()
}

fn record(file: &[u8], table: Table, place: u64) -> Option<[u8; RECORD_BYTES]> {
    records(file, table).nth(usize::try_from(place).ok()?)
}

/// The records of a file whose blocks are in form.
fn records(file: &[u8], table: Table) -> impl Iterator<Item = [u8; RECORD_BYTES]> + '_ {
    file.chunks_exact(BLOCK_BYTES)
        .map(|block| (Header::of(block), block))
        .filter(move |(header, _)| u64::from(header.kind) == table.number())
        .flat_map(|(header, block)| {
            block[RECORDS_AT..].chunks_exact(RECORD_BYTES).take(header.records.into())
        })
        .map(|record| record.try_into().expect("a chunk is one record"))
}

fn ranges(table: Table) -> Vec<Range> {
    match table {
        Table::Holdings => legs(range("group", GROUP, "0 in the holdings", |group| group == 0)),
        Table::Placement => {
            legs(range("group", GROUP, "0 (not placed) to 32", |group| group <= MOST_CLAIMS as u64))
        }
        Table::Claims => claims(),
    }
}

fn range(name: &'static str, field: Field, says: impl Into<String>, holds: fn(u64) -> bool) -> Range {
    Range { name, field, says: says.into(), holds }
}

fn legs(group: Range) -> Vec<Range> {
    let one_or_two = |value| value == 1 || value == 2;
    vec![
        group,
        range("side", SIDE, "1 (long) or 2 (short)", one_or_two),
        range("type", TYPE, "1 (call) or 2 (put)", one_or_two),
        range("style", STYLE, "1 (American) or 2 (European)", one_or_two),
        range("market", MARKET, "1 (listed) or 2 (OTC)", one_or_two),
        range("unit size", UNIT_SIZE, format!("1 to {GREATEST_UNIT_SIZE}"), |size| {
            (1..=u64::from(GREATEST_UNIT_SIZE)).contains(&size)
        }),
        range("underlying", UNDERLYING, format!("1 to {}", u32::MAX), |underlying| underlying >= 1),
        range("strike in mills", STRIKE, format!("1 to {GREATEST_STRIKE}"), |strike| {
            (1..=u64::from(GREATEST_STRIKE)).contains(&strike)
        }),
        range("expiry", EXPIRY, "a real date from 20000101 to 20991231", |date| is_expiry(date as u32)),
        range("count of contracts", CONTRACTS, format!("1 to {MOST_CONTRACTS}"), |contracts| {
            (1..=u64::from(MOST_CONTRACTS)).contains(&contracts)
        }),
        range("settlement", SETTLEMENT, "0 (not stated), 1 (cash) or 2 (physical)", |settlement| {
            settlement <= 2
        }),
        range("paid mark", PAID, "0 or 1", |mark| mark <= 1),
        range("filler (bytes 26 to 31)", FILLER, "0", |filler| filler == 0),
    ]
}

fn claims() -> Vec<Range> {
    let zero = |value| value == 0;
    vec![
        range("group", GROUP, format!("1 to {MOST_CLAIMS}"), |group| {
            (1..=MOST_CLAIMS as u64).contains(&group)
        }),
        range("filler (bytes 2 to 7)", (2, 6), "0", zero),
        range("margin in mills", CLAIM_MARGIN, format!("0 to {GREATEST_AMOUNT}"), |margin| {
            margin <= GREATEST_AMOUNT as u64
        }),
        range("filler (bytes 16 to 23)", (16, 8), "0", zero),
        range("filler (bytes 24 to 31)", (24, 8), "0", zero),
    ]
}
