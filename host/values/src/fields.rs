//! The fields of a record by their places.

use crate::records::{ACTION_AT, RECORD_BYTES};

/// Where a field stands in a record: offset and width in bytes.
pub type Field = (usize, usize);

/// The group of a leg or of a claim.
pub const GROUP: Field = (0, 2);
/// Long or short.
pub const SIDE: Field = (2, 1);
/// Call or put.
pub const TYPE: Field = (3, 1);
/// American or European.
pub const STYLE: Field = (4, 1);
/// Listed or over the counter.
pub const MARKET: Field = (5, 1);
/// How many units a contract is for.
pub const UNIT_SIZE: Field = (6, 2);
/// The number of the underlying.
pub const UNDERLYING: Field = (8, 4);
/// In mills for one unit.
pub const STRIKE: Field = (12, 4);
/// The number YYYYMMDD.
pub const EXPIRY: Field = (16, 4);
/// How many contracts.
pub const CONTRACTS: Field = (20, 4);
/// Not stated, cash or physical.
pub const SETTLEMENT: Field = (24, 1);
/// The paid mark.
pub const PAID: Field = (25, 1);
/// Zero bytes.
pub const FILLER: Field = (26, 6);
/// Of a fill; in a leg it is filler.
pub const ACTION: Field = (ACTION_AT, 1);
/// Of a claim, in mills.
pub const CLAIM_MARGIN: Field = (8, 8);

/// What stands in a field of a record of a table.
pub fn get(table: &[u8], record: usize, (at, width): Field) -> u64 {
    let start = record * RECORD_BYTES + at;
    table[start..start + width].iter().rev().fold(0, |value, &byte| value << 8 | u64::from(byte))
}
