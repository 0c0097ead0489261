//! Records as the transcript writes them: legs in the notation of document 01's "Accounts on the bench".

use usm::leg_table;
use usm_kit::accounts::{in_group, leg};
use usm_kit::fields::*;

/// A field of a record and the number that is put there.
pub type Setting = (Field, u64);

/// Words that say a field's number.
const WORDS: [(&str, Setting); 5] = [
    ("european", (STYLE, 2)),
    ("otc", (MARKET, 2)),
    ("cash", (SETTLEMENT, 1)),
    ("physical", (SETTLEMENT, 2)),
    ("paid", (PAID, 1)),
];

/// Fields whose number is said by their name, in range or not: `side=3`.
const NAMES: [(&str, Field); 11] = [
    ("side", SIDE),
    ("type", TYPE),
    ("style", STYLE),
    ("market", MARKET),
    ("unit", UNIT_SIZE),
    ("underlying", UNDERLYING),
    ("strike", STRIKE),
    ("expiry", EXPIRY),
    ("settlement", SETTLEMENT),
    ("paid", PAID),
    ("action", ACTION),
];

/// What a word says of a leg: `european`, `x10` for ten contracts, `expiry=20110618`.
fn setting(word: &str) -> Option<Setting> {
    if let Some((_, setting)) = WORDS.iter().find(|(name, _)| *name == word) {
        return Some(*setting);
    }
    let (field, number) = match word.strip_prefix('x') {
        Some(contracts) => (CONTRACTS, contracts),
        None => {
            let (name, number) = word.split_once('=')?;
            (NAMES.iter().find(|(field, _)| *field == name)?.1, number)
        }
    };
    Some((field, number.parse().ok()?))
}

/// Side, strike and type of a leg: `L60c`, or `S50.001p` for a strike that is not in whole dollars.
fn series(word: &str) -> Option<[Setting; 3]> {
    let (side, rest) =
        [("L", 1), ("S", 2)].iter().find_map(|(letter, side)| Some((*side, word.strip_prefix(letter)?)))?;
    let (option_type, dollars) = [("c", 1), ("p", 2)]
        .iter()
        .find_map(|(letter, number)| Some((*number, rest.strip_suffix(letter)?)))?;
    let (whole, mills) = dollars.split_once('.').unwrap_or((dollars, "000"));
    let mills = (mills.len() == 3).then_some(format!("{whole}{mills}"))?;
    Some([(SIDE, side), (STRIKE, mills.parse().ok()?), (TYPE, option_type)])
}

/// Puts numbers into a record; each must fit in its field.
pub fn set(table: &mut [u8], record: usize, settings: &[Setting]) -> Result<(), String> {
    for &(field, number) in settings {
        put(table, record, field, number);
        if get(table, record, field) != number {
            return Err(format!("{number} does not fit in {} bytes", field.1));
        }
    }
    Ok(())
}

/// The records of these words. A number is the group of the legs behind it, 0 before the first. A word behind a
/// leg is about that leg, one before the first leg about all of them.
pub fn legs(about_all: &[Setting], words: &[&str]) -> Result<Vec<u8>, String> {
    let plain = leg_table(&[in_group(0, leg("L50c"))]);
    let (mut about_all, mut group, mut table) = (about_all.to_vec(), 0, Vec::new());
    for word in words {
        let record = records(&table);
        if let Ok(number) = word.parse() {
            group = number;
        } else if let Some(series) = series(word) {
            table.extend_from_slice(&plain);
            set(&mut table, record, &[&[(GROUP, group)], &series[..], &about_all].concat())?;
        } else if let Some(setting) = setting(word) {
            match record.checked_sub(1) {
                Some(last) => set(&mut table, last, &[setting])?,
                None => about_all.push(setting),
            }
        } else {
            return Err(format!("`{word}` is no leg, and says nothing about one"));
        }
    }
    if table.is_empty() {
        return Err(String::from("there is no leg"));
    }
    Ok(table)
}
