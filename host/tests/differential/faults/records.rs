//! Faults of tables and records by themselves, whatever the rules say: sizes, ranges, places.

use usm::{Claim, Tables, MOST_CLAIMS, MOST_LEGS, RECORD_BYTES};
use usm_kit::fields::*;

use crate::random::Random;
use crate::values::{AT_THE_LIMIT, BAD_IN_CLAIMS, BAD_IN_LEGS};

/// A table, each of the three at times.
fn any_table<'a>(random: &mut Random, tables: &'a mut Tables) -> &'a mut Vec<u8> {
    match random.below(3) {
        0 => &mut tables.holdings,
        1 => &mut tables.placement,
        _ => &mut tables.claims,
    }
}

fn leg_table_of<'a>(random: &mut Random, tables: &'a mut Tables) -> &'a mut Vec<u8> {
    if random.one_in(3) {
        &mut tables.holdings
    } else {
        &mut tables.placement
    }
}

/// Refusal 1: not whole records, or records over the limit.
pub fn wrong_size(random: &mut Random, tables: &mut Tables) {
    let table = any_table(random, tables);
    match random.below(4) {
        0 => table.truncate(table.len().saturating_sub(1 + random.below(31))),
        1 => table.extend((0..1 + random.below(31)).map(|_| 0)),
        2 => {
            let record = first_record_or(table, &[0; RECORD_BYTES]);
            fill_up(table, MOST_LEGS + 1, &record);
        }
        _ => {
            // Up to the limit of claims and one past it.
            let record = first_record_or(table, &Claim { group: 1, margin: 0 }.to_bytes());
            let count = MOST_CLAIMS + random.below(2);
            table.truncate(count * RECORD_BYTES);
            fill_up(table, count, &record);
        }
    }
}

fn fill_up(table: &mut Vec<u8>, count: usize, record: &[u8]) {
    while records(table) < count {
        table.extend_from_slice(record);
    }
}

fn first_record_or(table: &[u8], otherwise: &[u8]) -> Vec<u8> {
    table.get(..RECORD_BYTES).unwrap_or(otherwise).to_vec()
}

/// Refusal 4: a field just past its range, or far past it.
pub fn out_of_range(random: &mut Random, tables: &mut Tables) {
    let in_claims = random.one_in(4);
    let (field, value) = if in_claims { random.pick(&BAD_IN_CLAIMS) } else { random.pick(&BAD_IN_LEGS) };
    let table = if in_claims { &mut tables.claims } else { leg_table_of(random, tables) };
    if records(table) > 0 {
        let record = random.below(records(table));
        put(table, record, field, value);
    }
}

/// No fault at all, unless it is one for the rules: a value at the end of its range is good.
pub fn at_the_limit(random: &mut Random, tables: &mut Tables) {
    let (field, value) = random.pick(&AT_THE_LIMIT);
    let count = records(&tables.placement).min(records(&tables.holdings));
    if count > 0 {
        let record = random.below(count);
        put(&mut tables.placement, record, field, value);
        put(&mut tables.holdings, record, field, value);
    }
}

/// A record goes, comes twice, or changes its place.
pub fn whole_record(random: &mut Random, tables: &mut Tables) {
    let table = leg_table_of(random, tables);
    let count = records(table);
    if count == 0 {
        return;
    }
    let start = random.below(count) * RECORD_BYTES;
    let record = table[start..start + RECORD_BYTES].to_vec();
    match random.below(3) {
        0 => {
            table.drain(start..start + RECORD_BYTES);
        }
        1 => table.extend_from_slice(&record),
        _ => {
            let other = random.below(count) * RECORD_BYTES;
            table.copy_within(other..other + RECORD_BYTES, start);
            table[other..other + RECORD_BYTES].copy_from_slice(&record);
        }
    }
}
