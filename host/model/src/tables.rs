//! Tables of records: their sizes (1) and the ranges of their fields (4).

use usm_values::{Claim, Leg, Refusal, Table, RECORD_BYTES};

/// The three tables of a sheet as bytes.
pub struct Tables<'a> {
    pub holdings: &'a [u8],
    pub placement: &'a [u8],
    pub claims: &'a [u8],
}

/// The three tables decoded, every field in range.
pub struct Records {
    pub holdings: Vec<Leg>,
    pub placement: Vec<Leg>,
    pub claims: Vec<Claim>,
}

impl<'a> Tables<'a> {
    /// All three with their numbers, in the order of a file.
    pub fn in_order(&self) -> [(Table, &'a [u8]); 3] {
        [(Table::Holdings, self.holdings), (Table::Placement, self.placement), (Table::Claims, self.claims)]
    }

    /// Refusal 1 is about any of the three, before a single record is looked at.
    pub fn check_sizes(&self) -> Result<(), Refusal> {
        self.in_order().into_iter().try_for_each(|(which, table)| check_size(which, table))
    }

    pub fn are_empty(&self) -> bool {
        self.in_order().iter().all(|(_, table)| table.is_empty())
    }

    /// 1, then 4 by table and record.
    pub fn decode(&self) -> Result<Records, Refusal> {
        self.check_sizes()?;
        Ok(Records {
            holdings: legs(Table::Holdings, self.holdings)?,
            placement: legs(Table::Placement, self.placement)?,
            claims: claims(self.claims)?,
        })
    }
}

/// Refusal 1: not whole records, or over the table's limit.
pub fn check_size(which: Table, table: &[u8]) -> Result<(), Refusal> {
    let whole = table.len() % RECORD_BYTES == 0;
    if whole && table.len() / RECORD_BYTES <= which.most_records() {
        Ok(())
    } else {
        Err(Refusal::new(1, 0, 0))
    }
}

/// How many records there are, or 4 at the first whose fields are not in range.
pub fn check_fields(which: Table, table: &[u8]) -> Result<usize, Refusal> {
    match which {
        Table::Holdings | Table::Placement => legs(which, table).map(|legs| legs.len()),
        Table::Claims => claims(table).map(|claims| claims.len()),
    }
}

/// A placement table given by itself: 1, then 4 over the whole table.
pub fn placement(table: &[u8]) -> Result<Vec<Leg>, Refusal> {
    check_size(Table::Placement, table)?;
    legs(Table::Placement, table)
}

/// The legs of holdings or placement; in holdings the group must be 0.
pub fn legs(which: Table, table: &[u8]) -> Result<Vec<Leg>, Refusal> {
    decode(which, table, |record| {
        Leg::from_bytes(record).filter(|leg| which == Table::Placement || leg.group == 0)
    })
}

pub fn claims(table: &[u8]) -> Result<Vec<Claim>, Refusal> {
    decode(Table::Claims, table, Claim::from_bytes)
}

fn decode<T>(
    which: Table,
    table: &[u8],
    from_bytes: impl Fn(&[u8; RECORD_BYTES]) -> Option<T>,
) -> Result<Vec<T>, Refusal> {
    table
        .chunks_exact(RECORD_BYTES)
        .enumerate()
        .map(|(place, record)| {
            let record = record.try_into().expect("a chunk is one record");
            from_bytes(record).ok_or(Refusal::new(4, which.number(), place as u64))
        })
        .collect()
}
