//! What the transcript's commands change: three tables, a day's fills and a file.

use std::str::FromStr;

use usm::{Table, RECORD_BYTES};
use usm_kit::block::{seal, BLOCK_BYTES};
use usm_kit::fields::*;

use crate::notation::{legs, set};

#[derive(Default)]
pub struct Memory {
    pub holdings: Vec<u8>,
    pub placement: Vec<u8>,
    pub claims: Vec<u8>,
    pub fills: Vec<u8>,
    pub file: Vec<u8>,
}

/// The table that a letter names.
pub fn table_named(letter: &str) -> Result<Table, String> {
    match letter {
        "h" => Ok(Table::Holdings),
        "p" => Ok(Table::Placement),
        "c" => Ok(Table::Claims),
        _ => Err(format!("`{letter}` is none of h, p and c")),
    }
}

pub fn number<T: FromStr>(word: &str) -> Result<T, String> {
    word.parse().map_err(|_| format!("`{word}` is no number that fits here"))
}

/// Claims: a group and a margin each.
fn claims(words: &[&str]) -> Result<Vec<u8>, String> {
    if words.is_empty() || words.len() % 2 != 0 {
        return Err(format!("a group and a margin each, not {} numbers", words.len()));
    }
    let mut table = vec![0; words.len() / 2 * RECORD_BYTES];
    for (record, claim) in words.chunks_exact(2).enumerate() {
        set(&mut table, record, &[(GROUP, number(claim[0])?), (CLAIM_MARGIN, number(claim[1])?)])?;
    }
    Ok(table)
}

impl Memory {
    pub fn table(&mut self, which: Table) -> &mut Vec<u8> {
        match which {
            Table::Holdings => &mut self.holdings,
            Table::Placement => &mut self.placement,
            Table::Claims => &mut self.claims,
        }
    }

    /// A table, the fills, or the file.
    fn bytes(&mut self, letter: &str) -> Result<&mut Vec<u8>, String> {
        match (letter, table_named(letter)) {
            ("f", _) => Ok(&mut self.file),
            ("d", _) => Ok(&mut self.fills),
            (_, Ok(which)) => Ok(self.table(which)),
            _ => Err(format!("`{letter}` is none of h, p, c, d and f")),
        }
    }

    /// A table of records.
    fn records(&mut self, letter: &str) -> Result<&mut Vec<u8>, String> {
        match letter {
            "f" => Err(String::from("`f` is none of h, p, c and d")),
            _ => self.bytes(letter),
        }
    }

    pub fn byte(&mut self, letter: &str, at: usize) -> Result<&mut u8, String> {
        self.bytes(letter)?.get_mut(at).ok_or(format!("there is no byte {at}"))
    }

    /// Sets a length; what is new is zero.
    pub fn cut(&mut self, letter: &str, length: usize) -> Result<(), String> {
        self.bytes(letter)?.resize(length, 0);
        Ok(())
    }

    /// Appends the records that these words say.
    pub fn append(&mut self, command: &str, words: &[&str]) -> Result<(), String> {
        let (letter, records) = match command {
            "c" => ("c", claims(words)?),
            "open" => ("d", legs(&[(ACTION, 1)], words)?),
            "close" => ("d", legs(&[(ACTION, 2)], words)?),
            table => (table, legs(&[], words)?),
        };
        self.records(letter)?.extend_from_slice(&records);
        Ok(())
    }

    /// Repeats the last record until there are `count`, each with so much more strike and group
    /// than the one before.
    pub fn fill(&mut self, letter: &str, count: usize, strike: u64, group: u64) -> Result<(), String> {
        let table = self.records(letter)?;
        while records(table) < count {
            let last = records(table).checked_sub(1).ok_or("there is no record to repeat")?;
            table.extend_from_within(last * RECORD_BYTES..);
            for (field, more) in [(STRIKE, strike), (GROUP, group)] {
                let number = get(table, last, field) + more;
                put(table, last + 1, field, number);
            }
        }
        Ok(())
    }

    /// Puts the two checks of a block of the file right.
    pub fn seal(&mut self, block: usize) -> Result<(), String> {
        let bytes = self.file.chunks_exact_mut(BLOCK_BYTES).nth(block);
        bytes.map(seal).ok_or(format!("there is no block {block}"))
    }
}
