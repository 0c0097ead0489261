//! The blocks of a sheet file: their measures, and what one says of itself.

/// Bytes of a block.
pub const BLOCK_BYTES: usize = 512;
/// A file has 1 to this many blocks.
pub const MOST_BLOCKS: usize = 39;
/// Bytes of the longest sheet file.
pub const LONGEST_FILE: usize = MOST_BLOCKS * BLOCK_BYTES;
/// Where in a block its records begin.
pub const RECORDS_AT: usize = 16;
/// A block has 1 to this many records.
pub const RECORDS_IN_BLOCK: usize = 15;
/// Where in a block of the new form its account stands; in the old form the bytes are zero.
pub const ACCOUNT_AT: usize = 496;
/// Where the account ends; the bytes from here to the checks are zero.
pub const ACCOUNT_END: usize = 504;
/// Where in a block check A stands, and check B behind it.
pub const CHECKS_AT: usize = 508;

/// What a block says of itself, right or wrong.
pub struct Header {
    /// The number of its table.
    pub kind: u8,
    /// How many records it has.
    pub records: u8,
    /// Its own number, from 0.
    pub number: u16,
    /// How many blocks the file has.
    pub blocks: u16,
}

impl Header {
    /// The header of a block, of which at least ten bytes must be there.
    pub fn of(block: &[u8]) -> Header {
        let u16_at = |at: usize| u16::from_le_bytes([block[at], block[at + 1]]);
        Header { kind: block[4], records: block[5], number: u16_at(6), blocks: u16_at(8) }
    }
}

/// The number in the account's place of a block.
pub fn account_of(block: &[u8]) -> u64 {
    u64::from_le_bytes(block[ACCOUNT_AT..ACCOUNT_END].try_into().expect("eight bytes"))
}
