//! Ways to change a field of a record by hand, with the places of all.

use usm_values::RECORD_BYTES;

pub use usm_values::fields::*;

/// How many records a table has.
pub fn records(table: &[u8]) -> usize {
    table.len() / RECORD_BYTES
}

/// Puts a number into a field of a record of a table.
pub fn put(table: &mut [u8], record: usize, (at, width): Field, value: u64) {
    let start = record * RECORD_BYTES + at;
    table[start..start + width].copy_from_slice(&value.to_le_bytes()[..width]);
}
