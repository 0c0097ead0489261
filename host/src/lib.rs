//! Universal spread margin and the placement sheet, for Rust callers.
//!
//! The calls are those of the proved library, `libusm_c.a`; the rules they keep stand in
//! [docs/RULES.md](../../../../docs/RULES.md) of the repository, and what each call promises in
//! `include/usm.h`. Work on Rust values with [`Sheet`], or on the bytes of tables and files with the
//! functions beside it. Every input is answered: with a result, or with the first [`Refusal`] in the
//! rules' order, whose [`Reason`] names it. [`play`] builds holdings from a day's fills,
//! [`holdings_of_list`] from a list of option symbols, and [`salvage_file`] makes a sound file of a damaged
//! one; [`binary_margin`] and [`binary_pair`] are for credit event binaries. [`sentences`] says for people
//! what is wrong, [`text`] reads and writes sheets as text, and [`csv`] their tables as a spreadsheet does.
//! [`ffi`] has the calls with their answers as C gets them.
//!
//! No call keeps any state: all may be made from any number of threads at once.

#![warn(missing_docs)]
#![deny(unsafe_code)]

/// The version of the whole, as the header `usm.h` has it.
pub const VERSION: &str = env!("USM_VERSION");

pub mod csv;
// What each of these answers is said in include/usm.h.
#[allow(missing_docs)]
pub mod ffi;
pub mod sentences;
pub mod text;

mod binaries;
mod calls;
mod fills;
mod joining;
mod lists;
mod salvage;
mod sheet;

pub use binaries::{binary_cell, binary_margin, binary_pair, Cell, SPREADS, TIMES};
pub use calls::{
    cash, check_file, check_sheet, check_table, export, file_line, file_table, import, margin, margins,
    mark_paid, move_to_new, move_to_old, play_fills, read_file, salvage, worksheet, write_file,
};
pub use fills::{fill_table, play, Played};
pub use lists::{holdings_of_list, list_of_holdings, root_table};
pub use salvage::{salvage_file, Dropped, Salvaged};
pub use sheet::{claim_table, leg_table, Sheet, Tables};

#[doc(inline)]
pub use usm_values::{
    is_expiry, numbers, padded_root, Accepted, Action, Binary, Claim, Fill, Form, Leg, Line, LongBinary,
    Market, OptionType, Origin, PlayCounts, Reason, RecordCounts, Refusal, Root, SalvageCounts, Series,
    Settlement, Side, Style, Table, BLOCK_BYTES, FILLS_TABLE, GREATEST_AMOUNT, GREATEST_SPREAD,
    GREATEST_STRIKE, GREATEST_UNIT_SIZE, LIST_TABLE, LONGEST_FILE, LONGEST_LINE, LONGEST_LIST, MOST_BLOCKS,
    MOST_CLAIMS, MOST_CONTRACTS, MOST_FILLS, MOST_LEGS, MOST_LINES, MOST_ROOTS, MOST_WORK, RECORD_BYTES,
    ROOTS_TABLE, ROOT_BYTES, ROOT_NAME_BYTES,
};
