//! The library and the model as two values of one type, to hold them against each other.

use usm::{
    Accepted, Binary, LongBinary, Origin, PlayCounts, RecordCounts, Refusal, SalvageCounts, Side, Table,
};
use usm_model as model;

/// The calls of one implementation.
#[allow(clippy::type_complexity)] // a list of signatures is what this is
pub struct Calls {
    pub name: &'static str,
    pub check_table: fn(Table, &[u8]) -> Result<usize, Refusal>,
    pub margin: fn(&[u8], u64) -> Result<i64, Refusal>,
    pub cash: fn(&[u8], u64) -> Result<i64, Refusal>,
    pub margins: fn(&[u8], u64, &mut [i64]) -> Result<usize, Refusal>,
    pub worksheet: fn(&[u8], u64, &mut [u32], &mut [i64]) -> Result<usize, Refusal>,
    pub mark_paid: fn(&mut [u8]) -> Result<usize, Refusal>,
    pub check_sheet: fn(&[u8], &[u8], &[u8]) -> Result<Accepted, Refusal>,
    pub check_file: fn(&[u8]) -> Result<Accepted, Refusal>,
    pub read_file: fn(&[u8], &mut [u8], &mut [u8], &mut [u8]) -> Result<(RecordCounts, Origin), Refusal>,
    pub write_file: fn(&[u8], &[u8], &[u8], Origin, &mut [u8]) -> Result<usize, Refusal>,
    pub move_to_new: fn(&[u8], u64, &mut [u8]) -> Result<usize, Refusal>,
    pub move_to_old: fn(&[u8], &mut [u8]) -> Result<usize, Refusal>,
    pub play_fills: fn(&[u8], &[u8], &mut [u8], &mut [u32], &mut [u8]) -> Result<PlayCounts, Refusal>,
    pub import: fn(&[u8], &[u8], &mut [u8]) -> Result<usize, Refusal>,
    pub export: fn(&[u8], &[u8], &mut [u8]) -> Result<usize, Refusal>,
    pub salvage: fn(&[u8], &mut [u8], &mut [u32], &mut [u8]) -> Result<SalvageCounts, Refusal>,
    pub binary_margin: fn(Side, u64, u64, u64, u64) -> Result<i64, Refusal>,
    pub binary_pair: fn(u64, LongBinary, Binary) -> Result<i64, Refusal>,
    pub file_line: fn(&[u8]) -> String,
    pub file_table: fn(&[u8]) -> String,
}

/// The proved library, through the safe wrapper.
pub const LIBRARY: Calls = Calls {
    name: "library",
    check_table: usm::check_table,
    margin: usm::margin,
    cash: usm::cash,
    margins: usm::margins,
    worksheet: usm::worksheet,
    mark_paid: usm::mark_paid,
    check_sheet: usm::check_sheet,
    check_file: usm::check_file,
    read_file: usm::read_file,
    write_file: usm::write_file,
    move_to_new: usm::move_to_new,
    move_to_old: usm::move_to_old,
    play_fills: usm::play_fills,
    import: usm::import,
    export: usm::export,
    salvage: usm::salvage,
    binary_margin: usm::binary_margin,
    binary_pair: usm::binary_pair,
    file_line: usm::file_line,
    file_table: usm::file_table,
};

/// The independent model.
pub const MODEL: Calls = Calls {
    name: "model",
    check_table: model::check_table,
    margin: model::margin,
    cash: model::cash,
    margins: model::margins,
    worksheet: model::worksheet,
    mark_paid: model::mark_paid,
    check_sheet: model::check_sheet,
    check_file: model::check_file,
    read_file: model::read_file,
    write_file: model::write_file,
    move_to_new: model::move_to_new,
    move_to_old: model::move_to_old,
    play_fills: model::play_fills,
    import: model::import,
    export: model::export,
    salvage: model::salvage,
    binary_margin: model::binary_margin,
    binary_pair: model::binary_pair,
    file_line: model::file_line,
    file_table: model::file_table,
};

pub const BOTH: [Calls; 2] = [LIBRARY, MODEL];
