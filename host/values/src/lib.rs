//! What a sheet is made of and what a call answers, as Rust values: records, blocks, forms, refusals.
//!
//! Nothing here calls the library. The wrapper, package `usm`, hands the library bytes that are made of these values,
//! and makes such values of its answers; the model works with them. They are shared so that the two have the same
//! signatures and can be held against each other. The library's answers do not come from them: a range or an offset
//! that is wrong here makes the model differ from it.

#![warn(missing_docs)]
#![forbid(unsafe_code)]

pub mod block;
pub mod fields;
pub mod numbers;

mod form;
mod reason;
mod records;
mod refusal;

pub use block::{BLOCK_BYTES, LONGEST_FILE, MOST_BLOCKS};
pub use form::{Form, Origin};
pub use reason::Reason;
pub use records::{
    is_expiry, padded_root, Action, Binary, Claim, Fill, Leg, Line, LongBinary, Market, OptionType, Root,
    Series, Settlement, Side, Style, Table, ACTION_AT, FILLS_TABLE, GREATEST_AMOUNT, GREATEST_SPREAD,
    GREATEST_STRIKE, GREATEST_UNIT_SIZE, LIST_TABLE, LONGEST_LINE, LONGEST_LIST, MOST_CLAIMS, MOST_CONTRACTS,
    MOST_FILLS, MOST_LEGS, MOST_LINES, MOST_ROOTS, MOST_WORK, RECORD_BYTES, ROOTS_TABLE, ROOT_BYTES,
    ROOT_NAME_BYTES,
};
pub use refusal::{Accepted, PlayCounts, RecordCounts, Refusal, SalvageCounts};
