//! The records of document 01, "Money, units, legs", as Rust values.

mod binary;
mod claim;
mod date;
mod fill;
mod leg;
mod root;

pub use binary::{Binary, LongBinary, GREATEST_SPREAD};
pub use claim::Claim;
pub use date::is_expiry;
pub use fill::{Action, Fill, ACTION_AT};
pub use leg::{Leg, Line, Market, OptionType, Series, Settlement, Side, Style};
pub use root::{padded_root, Root, ROOT_BYTES, ROOT_NAME_BYTES};

/// Bytes of a leg record and of a claim record.
pub const RECORD_BYTES: usize = 32;
/// Holdings and placement have at most this many records each.
pub const MOST_LEGS: usize = 256;
/// Claims have at most this many records; groups are numbered 1 to this.
pub const MOST_CLAIMS: usize = 32;
/// A day has at most this many fills.
pub const MOST_FILLS: usize = 1_024;
/// The number of the table of fills; the three of a sheet have theirs by [`Table`].
pub const FILLS_TABLE: u64 = 4;
/// The number of the table of roots.
pub const ROOTS_TABLE: u64 = 5;
/// The number of a list of option symbols.
pub const LIST_TABLE: u64 = 6;
/// A table of roots has 1 to this many.
pub const MOST_ROOTS: usize = 256;
/// A list has at most this many lines: a record of holdings for each.
pub const MOST_LINES: usize = MOST_LEGS;
/// The bytes of the longest line of a list: a symbol of 21, a side, contracts of 6 digits, two blanks and a newline.
pub const LONGEST_LINE: usize = 31;
/// The bytes of the longest list.
pub const LONGEST_LIST: usize = MOST_LINES * LONGEST_LINE;
/// No net, no margin and no accepted total passes this many mills.
pub const GREATEST_AMOUNT: i64 = 2_560_000_000_000_000_000;
/// No accepted sheet makes the check work out more intrinsic values than this: all legs in one group, no two of one
/// strike.
pub const MOST_WORK: u64 = 65_536;
/// Greatest unit size of a leg.
pub const GREATEST_UNIT_SIZE: u16 = 1_000;
/// Greatest strike, in mills for one unit of the underlying.
pub const GREATEST_STRIKE: u32 = 99_999_999;
/// Most contracts in one record.
pub const MOST_CONTRACTS: u32 = 100_000;

/// The three tables of a sheet, by document 01's numbers.
#[derive(Clone, Copy, Debug, PartialEq, Eq, Hash)]
pub enum Table {
    /// What the account holds.
    Holdings = 1,
    /// How it stands in groups.
    Placement = 2,
    /// The margins claimed for the groups.
    Claims = 3,
}

impl Table {
    /// All three, in the order in which they stand in a file.
    pub const ALL: [Table; 3] = [Table::Holdings, Table::Placement, Table::Claims];

    /// The number document 01 gives this table.
    pub fn number(self) -> u64 {
        self as u64
    }

    /// How many records the table may have.
    pub fn most_records(self) -> usize {
        match self {
            Table::Holdings | Table::Placement => MOST_LEGS,
            Table::Claims => MOST_CLAIMS,
        }
    }

    /// The bytes of the longest such table.
    pub fn most_bytes(self) -> usize {
        self.most_records() * RECORD_BYTES
    }
}

fn u16_at(record: &[u8], at: usize) -> u16 {
    u16::from_le_bytes([record[at], record[at + 1]])
}

fn u32_at(record: &[u8], at: usize) -> u32 {
    u32::from_le_bytes([record[at], record[at + 1], record[at + 2], record[at + 3]])
}
