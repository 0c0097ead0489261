//! Changes to a written file that no text can ask for.

use usm::move_to_new;
use usm_kit::block::{renumber, seal, ACCOUNT_AT, ACCOUNT_END, BLOCK_BYTES, RECORDS_AT};
use usm_kit::fields::{put, EXPIRY, STRIKE};

use crate::sample::ACCOUNT;

/// A byte of block 1 changes on its way, and the checks tell.
pub fn damage_a_strike(mut file: Vec<u8>) -> Vec<u8> {
    file[BLOCK_BYTES + RECORDS_AT + STRIKE.0] ^= 1;
    file
}

/// Blocks 1 (placement) and 2 (claims) change places, with numbers and checks to match.
pub fn put_claims_before_placement(mut file: Vec<u8>) -> Vec<u8> {
    file[BLOCK_BYTES..].rotate_left(BLOCK_BYTES);
    renumber(&mut file);
    file
}

/// The first holding expires on a day that 2011 did not have.
pub fn expire_on_29_february_2011(mut file: Vec<u8>) -> Vec<u8> {
    put(&mut file[RECORDS_AT..], 0, EXPIRY, 20110229);
    seal(&mut file[..BLOCK_BYTES]);
    file
}

/// The last hundred bytes are lost.
pub fn cut_off_the_end(mut file: Vec<u8>) -> Vec<u8> {
    file.truncate(file.len() - 100);
    file
}

/// The file in the new form, of this account.
fn of_account(file: &[u8], account: u64) -> Vec<u8> {
    let mut moved = vec![0; file.len()];
    move_to_new(file, account, &mut moved).expect("a file of the old form");
    moved
}

/// The claims come from a file of another account.
pub fn join_two_accounts(file: Vec<u8>) -> Vec<u8> {
    let [mut one, two] = [ACCOUNT, ACCOUNT + 1].map(|account| of_account(&file, account));
    one[2 * BLOCK_BYTES..].copy_from_slice(&two[2 * BLOCK_BYTES..]);
    one
}

/// Behind holdings of the new form stand a placement and claims of the old one.
pub fn join_two_forms(mut file: Vec<u8>) -> Vec<u8> {
    let new = of_account(&file, ACCOUNT);
    file[..BLOCK_BYTES].copy_from_slice(&new[..BLOCK_BYTES]);
    file
}

/// A tool that knows the new mark and not the account behind it.
pub fn lose_the_account(file: Vec<u8>) -> Vec<u8> {
    let mut file = of_account(&file, ACCOUNT);
    for block in file.chunks_exact_mut(BLOCK_BYTES) {
        block[ACCOUNT_AT..ACCOUNT_END].fill(0);
        seal(block);
    }
    file
}
