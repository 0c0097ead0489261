//! Sheet files, and damage to them: by the mail, by a tool, or by someone who mends the checks.

use usm::{Form, Origin, Tables, RECORD_BYTES};
use usm_kit::block::{
    account_of, renumber, seal, ACCOUNT_AT, ACCOUNT_END, BLOCK_BYTES, CHECKS_AT, RECORDS_AT, RECORDS_IN_BLOCK,
};

use crate::random::Random;

/// Of either form; accounts whose bytes are all in use, or only one of them.
pub fn origin(random: &mut Random) -> Origin {
    match random.below(4) {
        0 | 1 => Origin::OLD,
        2 => Origin::new(random.pick(&[1, 7, 256, 1 << 32, 1 << 56, 1 << 63, u64::MAX])),
        _ => Origin::new(random.next().max(1)),
    }
}

/// The file of these tables. The records may be out of range, which no writer would let
/// pass; that is why this does not call one.
pub fn of(tables: &Tables, origin: Origin) -> Vec<u8> {
    let mut file = Vec::new();
    for (kind, table) in tables.in_order() {
        for records in table.chunks(RECORDS_IN_BLOCK * RECORD_BYTES) {
            let mut block = [0; BLOCK_BYTES];
            block[..4].copy_from_slice(&origin.form.mark());
            block[ACCOUNT_AT..ACCOUNT_END].copy_from_slice(&origin.account.to_le_bytes());
            block[4] = kind as u8;
            block[5] = records.chunks(RECORD_BYTES).len() as u8;
            block[RECORDS_AT..RECORDS_AT + records.len()].copy_from_slice(records);
            file.extend_from_slice(&block);
        }
    }
    renumber(&mut file);
    file
}

/// Blocks of two files of the same sheet, which differ in form or account, as a mail tool would join them;
/// with a little luck all of one.
pub fn joined(random: &mut Random, tables: &Tables) -> Vec<u8> {
    let (one, two) = (origin(random), origin(random));
    let (mut file, other) = (of(tables, one), of(tables, two));
    let often = random.pick(&[2, 4, 40]);
    for (block, from) in file.chunks_exact_mut(BLOCK_BYTES).zip(other.chunks_exact(BLOCK_BYTES)) {
        if random.one_in(often) {
            block.copy_from_slice(from);
        }
    }
    file
}

/// Does one kind of damage to a file.
pub fn damage(random: &mut Random, file: &mut Vec<u8>) {
    let blocks = file.len() / BLOCK_BYTES;
    if blocks == 0 {
        file.extend((0..random.below(3) * 256).map(|_| 0));
        return;
    }
    let at = random.below(blocks) * BLOCK_BYTES;
    match random.below(15) {
        0 => file[at + random.below(BLOCK_BYTES)] ^= 1 << random.below(8),
        1 => {
            file[at + random.below(BLOCK_BYTES)] ^= 1 << random.below(8);
            seal(&mut file[at..at + BLOCK_BYTES]);
        }
        2 => file.truncate(random.below(file.len() + 1)),
        3 => file.extend((0..1 + random.below(BLOCK_BYTES)).map(|index| index as u8)),
        4 => two_bytes_that_keep_check_a(random, &mut file[at..at + BLOCK_BYTES]),
        5 => swap_blocks(random, file),
        6 => {
            let block = file[at..at + BLOCK_BYTES].to_vec();
            file.extend_from_slice(&block);
            mend(random, file);
        }
        7 => {
            file.drain(at..at + BLOCK_BYTES);
            mend(random, file);
        }
        8 | 9 => header_field(random, &mut file[at..at + BLOCK_BYTES]),
        10 => unused_byte(random, &mut file[at..at + BLOCK_BYTES]),
        11 => other_account(random, &mut file[at..at + BLOCK_BYTES]),
        12 => other_form(random, &mut file[at..at + BLOCK_BYTES]),
        13 => file.chunks_exact_mut(BLOCK_BYTES).for_each(|block| other_form(random, block)),
        _ => past_the_limit(random, file),
    }
}

/// The account's bytes say something else, in a block of either form.
fn other_account(random: &mut Random, block: &mut [u8]) {
    let old = account_of(block);
    let bit = 1 << random.below(64);
    let new: u64 = random.pick(&[0, 1, old ^ bit, old.wrapping_add(1), old.swap_bytes()]);
    block[ACCOUNT_AT..ACCOUNT_END].copy_from_slice(&new.to_le_bytes());
    seal(block);
}

/// The mark of the other form; the account stays, goes or comes.
fn other_form(random: &mut Random, block: &mut [u8]) {
    let form = if block.starts_with(&Form::Old.mark()) { Form::New } else { Form::Old };
    block[..4].copy_from_slice(&form.mark());
    if random.one_in(2) {
        block[ACCOUNT_AT..ACCOUNT_END].copy_from_slice(&(form.number() - 1).to_le_bytes());
    }
    seal(block);
}

/// Mostly the numbers and checks are made to fit again.
fn mend(random: &mut Random, file: &mut [u8]) {
    if !random.one_in(4) {
        renumber(file);
    }
}

/// Check B is there for damage that check A does not see.
fn two_bytes_that_keep_check_a(random: &mut Random, block: &mut [u8]) {
    let (one, two) = (random.below(CHECKS_AT), random.below(CHECKS_AT));
    block.swap(one, two);
    if random.one_in(2) {
        block[one] = block[one].wrapping_add(1);
        block[two] = block[two].wrapping_sub(1);
    }
}

fn swap_blocks(random: &mut Random, file: &mut [u8]) {
    let blocks = file.len() / BLOCK_BYTES;
    let (one, two) = (random.below(blocks) * BLOCK_BYTES, random.below(blocks) * BLOCK_BYTES);
    for offset in 0..BLOCK_BYTES {
        file.swap(one + offset, two + offset);
    }
    mend(random, file);
}

/// Bytes 0 to 15: mark, kind, records, number, blocks, zeros.
fn header_field(random: &mut Random, block: &mut [u8]) {
    let random_byte = random.below(256);
    let (at, value) = match random.below(8) {
        0 => (random.below(4), random.pick(&[0, 49, 50, 51, random_byte])),
        1 => (4, random.below(5)),
        2 => (5, random.pick(&[0, 1, 14, 15, 16, 255])),
        3 => (5, usize::from(block[5]).wrapping_sub(1)),
        4 => (6 + random.below(2), random.below(3)),
        5 => (8 + random.below(2), random.below(40)),
        6 => (10 + random.below(6), random.below(256)),
        _ => (4, usize::from(block[4]) + 1),
    };
    block[at] = value as u8;
    if !random.one_in(4) {
        seal(block);
    }
}

/// An unused place or bytes 496 to 507 that are not zero.
fn unused_byte(random: &mut Random, block: &mut [u8]) {
    let used = (RECORDS_AT + usize::from(block[5]) * RECORD_BYTES).min(495);
    let at = used + random.below(CHECKS_AT - used);
    block[at] = random.pick(&[1, 128, 255]);
    seal(block);
}

/// More blocks of one kind than its table may have, or more than 39 in all.
fn past_the_limit(random: &mut Random, file: &mut Vec<u8>) {
    let at = random.below(file.len() / BLOCK_BYTES) * BLOCK_BYTES;
    let mut block = file[at..at + BLOCK_BYTES].to_vec();
    if !(1..=RECORDS_IN_BLOCK).contains(&usize::from(block[5])) {
        return;
    }
    // Full of its own first record, so that only the last block may be short.
    let record = block[RECORDS_AT..RECORDS_AT + RECORD_BYTES].to_vec();
    block[RECORDS_AT..496].copy_from_slice(&record.repeat(RECORDS_IN_BLOCK));
    block[5] = RECORDS_IN_BLOCK as u8;
    let copies = random.pick(&[1, 2, 3, 16, 17, 18, 38]);
    let inserted: Vec<u8> = block.repeat(copies);
    file.splice(at..at, inserted);
    renumber(file);
}
