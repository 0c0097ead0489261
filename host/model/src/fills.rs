//! "Build holdings from the day's fills": document 02, [4].

use std::collections::HashMap;

use super::tables;
use usm_values::{
    Action, Fill, Leg, Line, PlayCounts, Refusal, Side, Table, FILLS_TABLE, MOST_CONTRACTS, MOST_FILLS,
    MOST_LEGS, RECORD_BYTES,
};

/// A plain ledger from line and side to contracts. What is held stands in the order in which it was opened.
#[derive(Default)]
struct Ledger {
    contracts: HashMap<(Line, Side), u32>,
    order: Vec<Leg>,
}

impl Ledger {
    fn held(&self, leg: &Leg) -> u32 {
        self.contracts.get(&(leg.line(), leg.side)).copied().unwrap_or(0)
    }

    /// Adds contracts, or answers 19: a line and side too many, or too much of one.
    fn open(&mut self, leg: &Leg) -> Result<(), u8> {
        let held = self.held(leg);
        if held == 0 && self.order.len() == MOST_LEGS || held + leg.contracts > MOST_CONTRACTS {
            return Err(19);
        }
        if held == 0 {
            self.order.push(*leg);
        }
        self.contracts.insert((leg.line(), leg.side), held + leg.contracts);
        Ok(())
    }

    /// Takes contracts away, or answers 18: there are not so many.
    fn close(&mut self, leg: &Leg) -> Result<(), u8> {
        let key = (leg.line(), leg.side);
        let rest = self.held(leg).checked_sub(leg.contracts).ok_or(18)?;
        if rest == 0 {
            self.contracts.remove(&key);
            self.order.retain(|row| (row.line(), row.side) != key);
        } else {
            self.contracts.insert(key, rest);
        }
        Ok(())
    }

    /// Plays one fill; a refused one, whose number comes back, changes nothing.
    fn play(&mut self, record: &[u8; RECORD_BYTES]) -> Result<(), u8> {
        let Fill { action, leg } = Fill::from_bytes(record).ok_or(4)?;
        match action {
            Action::Open => self.open(&leg),
            Action::Close => self.close(&leg),
        }
    }

    /// One record for each line and side, with no mark.
    fn records(&self) -> impl Iterator<Item = [u8; RECORD_BYTES]> + '_ {
        self.order.iter().map(|row| Leg { contracts: self.held(row), paid: false, ..*row }.to_bytes())
    }
}

/// What stands in the starting table, repeats added into the first such record; or 1, 4 and 19.
fn start(holdings: &[u8], fills: &[u8]) -> Result<Ledger, Refusal> {
    tables::check_size(Table::Holdings, holdings)?;
    if fills.len() % RECORD_BYTES != 0 || fills.len() / RECORD_BYTES > MOST_FILLS {
        return Err(Refusal::new(1, 0, 0));
    }
    let mut ledger = Ledger::default();
    for (place, leg) in tables::legs(Table::Holdings, holdings)?.iter().enumerate() {
        ledger.open(leg).map_err(|_| Refusal::new(19, Table::Holdings.number(), place as u64))?;
    }
    Ok(ledger)
}

pub fn play(
    holdings: &[u8],
    fills: &[u8],
    result: &mut [u8],
    indices: &mut [u32],
    numbers: &mut [u8],
) -> Result<PlayCounts, Refusal> {
    let mut ledger = start(holdings, fills)?;
    let most = Table::Holdings.most_bytes();
    if result.len() < most {
        return Err(Refusal::new(17, Table::Holdings.number(), most as u64));
    }
    let count = fills.len() / RECORD_BYTES;
    if indices.len() < count || numbers.len() < count {
        return Err(Refusal::new(17, FILLS_TABLE, count as u64));
    }
    let mut refused = 0;
    for (index, record) in fills.chunks_exact(RECORD_BYTES).enumerate() {
        if let Err(number) = ledger.play(record.try_into().expect("a chunk is one record")) {
            indices[refused] = index as u32;
            numbers[refused] = number;
            refused += 1;
        }
    }
    for (place, record) in result.chunks_exact_mut(RECORD_BYTES).zip(ledger.records()) {
        place.copy_from_slice(&record);
    }
    Ok(PlayCounts { records: ledger.order.len(), refused })
}
