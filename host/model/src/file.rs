//! "The file": 1 to 39 blocks of 512 bytes.

use super::tables::Tables;
use usm_values::block::{
    ACCOUNT_AT, ACCOUNT_END, BLOCK_BYTES, CHECKS_AT, MOST_BLOCKS, RECORDS_AT, RECORDS_IN_BLOCK,
};
use usm_values::{Form, Origin, Refusal, Table, RECORD_BYTES};

/// The records of a file by kind, as bytes, before their fields are looked at; and where it comes from.
pub struct Parts {
    by_kind: [Vec<u8>; 3],
    pub origin: Origin,
}

impl Parts {
    /// No records yet.
    pub fn of(origin: Origin) -> Parts {
        Parts { by_kind: Default::default(), origin }
    }

    /// Adds a block's records behind those of its kind; answers all of these.
    pub fn add(&mut self, kind: Table, records: &[u8]) -> &[u8] {
        let table = &mut self.by_kind[kind as usize - 1];
        table.extend_from_slice(records);
        table
    }

    pub fn tables(&self) -> Tables<'_> {
        let [holdings, placement, claims] = &self.by_kind;
        Tables { holdings, placement, claims }
    }
}

/// Refusal 1 of a file: empty, not whole blocks, or too many.
pub fn check_size(file: &[u8]) -> Result<(), Refusal> {
    let blocks = file.len() / BLOCK_BYTES;
    if file.len() % BLOCK_BYTES != 0 || !(1..=MOST_BLOCKS).contains(&blocks) {
        return Err(Refusal::new(1, 0, 0));
    }
    Ok(())
}

/// Takes a file apart: 1 for its size, then 2, 3 and 20 in each block, in file order.
pub fn parts(file: &[u8]) -> Result<Parts, Refusal> {
    check_size(file)?;
    let blocks = file.len() / BLOCK_BYTES;
    let first = origin(file);
    let mut parts = Parts::of(first);
    let mut previous: Option<Header> = None;
    for (number, block) in file.chunks_exact(BLOCK_BYTES).enumerate() {
        if !checks_fit(block) {
            return Err(Refusal::new(2, 0, number as u64));
        }
        let out_of_form = Refusal::new(3, 0, number as u64);
        let header = header(block, first.form).ok_or(out_of_form)?;
        if !is_numbered(block, number, blocks) {
            return Err(out_of_form);
        }
        if previous.map_or(false, |previous| !may_follow(previous, header)) {
            return Err(out_of_form);
        }
        let table = parts.add(header.kind, header.records_of(block));
        if table.len() > header.kind.most_bytes() {
            return Err(out_of_form);
        }
        if is_of_another(origin(block), first) {
            return Err(Refusal::new(20, 0, number as u64));
        }
        previous = Some(header);
    }
    Ok(parts)
}

#[derive(Clone, Copy)]
pub struct Header {
    pub kind: Table,
    records: usize,
}

impl Header {
    fn records_end(&self) -> usize {
        RECORDS_AT + self.records * RECORD_BYTES
    }

    pub fn records_of<'a>(&self, block: &'a [u8]) -> &'a [u8] {
        &block[RECORDS_AT..self.records_end()]
    }
}

/// The header of a block, if all but its numbering, its records and its account is in this form.
pub fn header(block: &[u8], form: Form) -> Option<Header> {
    let kind = *Table::ALL.iter().find(|kind| **kind as u8 == block[4])?;
    let header = Header { kind, records: usize::from(block[5]) };
    let in_form = block[0..4] == *mark(form)
        && (1..=RECORDS_IN_BLOCK).contains(&header.records)
        && is_zero(&block[10..RECORDS_AT])
        && is_zero(&block[header.records_end()..ACCOUNT_AT])
        && (form == Form::New || is_zero(&block[ACCOUNT_AT..ACCOUNT_END]))
        && is_zero(&block[ACCOUNT_END..CHECKS_AT]);
    in_form.then_some(header)
}

/// Bytes 6 to 9 say that this is block `number` of `blocks`.
fn is_numbered(block: &[u8], number: usize, blocks: usize) -> bool {
    usize::from(u16_at(block, 6)) == number && usize::from(u16_at(block, 8)) == blocks
}

/// The form and the account of a block. One with neither mark counts as old, and is out of form there.
pub fn origin(block: &[u8]) -> Origin {
    match block.starts_with(mark(Form::New)) {
        true => Origin { form: Form::New, account: account(block) },
        false => Origin { form: Form::Old, account: 0 },
    }
}

/// Refusal 20: the account zero, or another form or account than the first block's.
pub fn is_of_another(origin: Origin, first: Origin) -> bool {
    origin.form == Form::New && origin.account == 0 || origin != first
}

/// What a block of this form begins with.
fn mark(form: Form) -> &'static [u8; 4] {
    match form {
        Form::Old => b"USM1",
        Form::New => b"USM2",
    }
}

/// Bytes 496 to 503 of a block.
fn account(block: &[u8]) -> u64 {
    (ACCOUNT_AT..ACCOUNT_END).rev().fold(0, |number, at| number << 8 | u64::from(block[at]))
}

/// Kinds never fall, and only a kind's last block may be short.
fn may_follow(previous: Header, next: Header) -> bool {
    let (before, after) = (previous.kind as u8, next.kind as u8);
    before < after || (before == after && previous.records == RECORDS_IN_BLOCK)
}

/// As much of a lent buffer as the file of these tables takes; or 17.
pub fn room<'a>(tables: &Tables, out: &'a mut [u8]) -> Result<&'a mut [u8], Refusal> {
    let length = contents(tables).count() * BLOCK_BYTES;
    out.get_mut(..length).ok_or(Refusal::new(17, 0, length as u64))
}

/// The kind and the records of each block.
fn contents<'a>(tables: &Tables<'a>) -> impl Iterator<Item = (Table, &'a [u8])> {
    let full = RECORDS_IN_BLOCK * RECORD_BYTES;
    tables
        .in_order()
        .into_iter()
        .flat_map(move |(kind, table)| table.chunks(full).map(move |records| (kind, records)))
}

/// Fills just that room, in a form that says the account or in the one that does not.
pub fn fill(tables: &Tables, origin: Origin, out: &mut [u8]) {
    let blocks = (out.len() / BLOCK_BYTES) as u16;
    let places = out.chunks_exact_mut(BLOCK_BYTES);
    for (number, ((kind, records), block)) in contents(tables).zip(places).enumerate() {
        block.fill(0);
        block[0..4].copy_from_slice(mark(origin.form));
        block[4] = kind as u8;
        block[5] = (records.len() / RECORD_BYTES) as u8;
        block[6..8].copy_from_slice(&(number as u16).to_le_bytes());
        block[8..10].copy_from_slice(&blocks.to_le_bytes());
        block[RECORDS_AT..RECORDS_AT + records.len()].copy_from_slice(records);
        if origin.form == Form::New {
            block[ACCOUNT_AT..ACCOUNT_END].copy_from_slice(&origin.account.to_le_bytes());
        }
        let (a, b) = checks(block);
        block[CHECKS_AT..CHECKS_AT + 2].copy_from_slice(&a.to_le_bytes());
        block[CHECKS_AT + 2..].copy_from_slice(&b.to_le_bytes());
    }
}

/// Refusal 2 is for a block in which they do not.
pub fn checks_fit(block: &[u8]) -> bool {
    checks(block) == (u16_at(block, CHECKS_AT), u16_at(block, CHECKS_AT + 2))
}

/// Check A is the sum of bytes 0 to 507, check B weighs byte i by 508 - i.
fn checks(block: &[u8]) -> (u16, u16) {
    let bytes = block[..CHECKS_AT].iter().map(|&byte| u32::from(byte));
    let a: u32 = bytes.clone().sum();
    let b: u32 = bytes.enumerate().map(|(i, byte)| (CHECKS_AT - i) as u32 * byte).sum();
    (a as u16, b as u16)
}

fn u16_at(block: &[u8], at: usize) -> u16 {
    u16::from_le_bytes([block[at], block[at + 1]])
}

fn is_zero(bytes: &[u8]) -> bool {
    bytes.iter().all(|&byte| byte == 0)
}
