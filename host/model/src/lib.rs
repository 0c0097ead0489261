//! An independent model of the library in plain Rust, written from documents 01 and 02 alone.
//!
//! It shares no line with the proved sources, and this package has no way to the library: it depends on the values of
//! `usm_values` alone, records, blocks, forms and refusals, which the wrapper has too, so that the calls of both have
//! the same signatures. The differential tests hold the two against each other, and the benchmark runs them side by
//! side.

#![forbid(unsafe_code)]

mod binaries;
pub mod boxes;
mod file;
mod fills;
mod salvage;
mod sheet;
mod spread;
mod symbols;
mod table;
mod tables;

use tables::Tables;
use usm_values::{Accepted, Form, Leg, Origin, RecordCounts, Refusal, Side, Table, RECORD_BYTES};

/// How many records a table has, if it is whole and every field is in range.
pub fn check_table(which: Table, table: &[u8]) -> Result<usize, Refusal> {
    tables::check_size(which, table)?;
    tables::check_fields(which, table)
}

/// The margin of group `g`, in mills.
pub fn margin(placement: &[u8], g: u64) -> Result<i64, Refusal> {
    let placement = tables::placement(placement)?;
    Ok(spread::margin(&spread::of_group(&placement, g)?))
}

/// The cash required for group `g` in a cash account, in mills.
pub fn cash(placement: &[u8], g: u64) -> Result<i64, Refusal> {
    let placement = tables::placement(placement)?;
    spread::cash(&spread::of_group(&placement, g)?, g)
}

/// The margins of groups 1 to `n`, from `out[0]`.
pub fn margins(placement: &[u8], n: u64, out: &mut [i64]) -> Result<usize, Refusal> {
    let margins = spread::margins(&tables::placement(placement)?, n)?;
    let room = out.get_mut(..margins.len()).ok_or(Refusal::new(17, 0, n))?;
    room.copy_from_slice(&margins);
    Ok(margins.len())
}

/// The distinct strikes of group `g`, ascending, and the net at each.
pub fn worksheet(placement: &[u8], g: u64, strikes: &mut [u32], nets: &mut [i64]) -> Result<usize, Refusal> {
    let placement = tables::placement(placement)?;
    let rows = spread::worksheet(&spread::of_group(&placement, g)?);
    if strikes.len() < rows.len() || nets.len() < rows.len() {
        return Err(Refusal::new(17, 0, rows.len() as u64));
    }
    for (index, row) in rows.iter().enumerate() {
        strikes[index] = row.strike;
        nets[index] = row.net;
    }
    Ok(rows.len())
}

/// Sets the paid mark on every unplaced long; answers how many had none.
pub fn mark_paid(placement: &mut [u8]) -> Result<usize, Refusal> {
    let legs = tables::placement(placement)?;
    let mut marks = 0;
    for (record, leg) in placement.chunks_exact_mut(RECORD_BYTES).zip(legs) {
        if leg.group == 0 && leg.side == Side::Long && !leg.paid {
            record.copy_from_slice(&Leg { paid: true, ..leg }.to_bytes());
            marks += 1;
        }
    }
    Ok(marks)
}

/// The verdict on a sheet given as three tables.
pub fn check_sheet(holdings: &[u8], placement: &[u8], claims: &[u8]) -> Result<Accepted, Refusal> {
    sheet::judge(&Tables { holdings, placement, claims }.decode()?)
}

/// The verdict on a sheet file.
pub fn check_file(file: &[u8]) -> Result<Accepted, Refusal> {
    let parts = file::parts(file)?;
    sheet::judge(&parts.tables().decode()?)
}

/// Takes a sheet file apart into three lent tables; answers also where it comes from.
pub fn read_file(
    file: &[u8],
    holdings: &mut [u8],
    placement: &mut [u8],
    claims: &mut [u8],
) -> Result<(RecordCounts, Origin), Refusal> {
    let parts = file::parts(file)?;
    let tables = parts.tables();
    tables.decode()?;
    let lent = [holdings, placement, claims];
    for (room, (which, records)) in lent.iter().zip(tables.in_order()) {
        if room.len() < records.len() {
            return Err(Refusal::new(17, which.number(), records.len() as u64));
        }
    }
    for (room, (_, records)) in lent.into_iter().zip(tables.in_order()) {
        room[..records.len()].copy_from_slice(records);
    }
    let counts = RecordCounts {
        holdings: tables.holdings.len() / RECORD_BYTES,
        placement: tables.placement.len() / RECORD_BYTES,
        claims: tables.claims.len() / RECORD_BYTES,
    };
    Ok((counts, parts.origin))
}

/// Writes three tables as a sheet file into a lent buffer and answers its length.
pub fn write_file(
    holdings: &[u8],
    placement: &[u8],
    claims: &[u8],
    origin: Origin,
    out: &mut [u8],
) -> Result<usize, Refusal> {
    let tables = Tables { holdings, placement, claims };
    tables.check_sizes()?;
    if tables.are_empty() {
        return Err(Refusal::new(1, 0, 0));
    }
    if origin.form == Form::New && origin.account == 0 {
        return Err(Refusal::new(20, 0, 0));
    }
    tables.decode()?;
    written(&tables, origin, out)
}

/// The file of these tables, or 17.
fn written(tables: &Tables, origin: Origin, out: &mut [u8]) -> Result<usize, Refusal> {
    let room = file::room(tables, out)?;
    file::fill(tables, origin, room);
    Ok(room.len())
}

/// Moves a file of the old form to the new one, with this account.
pub fn move_to_new(file: &[u8], account: u64, out: &mut [u8]) -> Result<usize, Refusal> {
    file::check_size(file)?;
    if account == 0 {
        return Err(Refusal::new(20, 0, 0));
    }
    moved(file, Form::Old, Origin { form: Form::New, account }, out)
}

/// Moves a file of the new form to the old one.
pub fn move_to_old(file: &[u8], out: &mut [u8]) -> Result<usize, Refusal> {
    moved(file, Form::New, Origin { form: Form::Old, account: 0 }, out)
}

/// The reader's refusals, then 3 at block 0 for a file of another form than the move is from, then 17.
fn moved(file: &[u8], from: Form, to: Origin, out: &mut [u8]) -> Result<usize, Refusal> {
    let parts = file::parts(file)?;
    parts.tables().decode()?;
    if parts.origin.form != from {
        return Err(Refusal::new(3, 0, 0));
    }
    written(&parts.tables(), to, out)
}

/// Plays fills over holdings; lists those that are refused.
pub use fills::play as play_fills;

/// Makes holdings of a list of option symbols, and a list of holdings.
pub use symbols::{export, import};

/// Makes a sound file of what is whole in a damaged one; lists what is dropped.
pub use salvage::salvage;

/// Credit event binaries: one position, and a long beside a short.
pub use binaries::{margin as binary_margin, pair as binary_pair};

/// The line `usm_check` prints for this file.
pub fn file_line(file: &[u8]) -> String {
    match check_file(file) {
        Ok(accepted) => accepted.line(),
        Err(refusal) => refusal.line(),
    }
}

/// The table `usm_table` prints for this file.
pub fn file_table(file: &[u8]) -> String {
    match file::parts(file).and_then(|parts| table::of(&parts.tables().decode()?)) {
        Ok(text) => text,
        Err(refusal) => refusal.line(),
    }
}
