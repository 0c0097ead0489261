//! "Lists of option symbols": document 02, [9].

use std::collections::{HashMap, HashSet};

use super::tables;
use usm_values::{
    is_expiry, padded_root, Leg, Market, OptionType, Refusal, Root, Settlement, Side, Style, Table,
    LIST_TABLE, MOST_CONTRACTS, MOST_LINES, MOST_ROOTS, RECORD_BYTES, ROOTS_TABLE, ROOT_BYTES,
};

/// What a root stands for.
type Terms = (Style, Market, u16, Settlement, u32);

fn terms_of_root(root: &Root) -> Terms {
    (root.style, root.market, root.unit_size, root.settlement, root.underlying)
}

fn terms_of_leg(leg: &Leg) -> Terms {
    (leg.style, leg.market, leg.unit_size, leg.settlement, leg.underlying)
}

/// The roots of a table, or 23: at 0 for its size, else at the first that is bad or repeats an earlier one.
fn roots(table: &[u8]) -> Result<Vec<Root>, Refusal> {
    let ill_formed = |place: usize| Refusal::new(23, ROOTS_TABLE, place as u64);
    if table.len() % ROOT_BYTES != 0 || !(1..=MOST_ROOTS).contains(&(table.len() / ROOT_BYTES)) {
        return Err(ill_formed(0));
    }
    let (mut names, mut terms) = (HashSet::new(), HashSet::new());
    let entries = table.chunks_exact(ROOT_BYTES).enumerate().map(|(place, entry)| {
        Root::from_bytes(entry.try_into().expect("a chunk is one root"))
            .filter(|root| names.insert(root.name) && terms.insert(terms_of_root(root)))
            .ok_or_else(|| ill_formed(place))
    });
    entries.collect()
}

/// A line as it is written, before anything is made of its digits.
struct Line<'a> {
    root: &'a str,
    date: &'a str,
    option_type: OptionType,
    strike: &'a str,
    side: Side,
    contracts: &'a str,
}

fn is_digits(text: &str) -> bool {
    text.chars().all(|c| c.is_ascii_digit())
}

/// A well formed number of at most eight digits.
fn number(digits: &str) -> u32 {
    digits.parse().expect("at most eight digits")
}

/// The parts of a line that ends with its newline, if it is well formed.
fn parsed(line: &[u8]) -> Option<Line<'_>> {
    let text = std::str::from_utf8(line).ok().filter(|text| text.is_ascii())?.strip_suffix('\n')?;
    let (rest, contracts) = text.rsplit_once(' ')?;
    let (symbol, side) = rest.rsplit_once(' ')?;
    if symbol.len() != 21 || !(1..=6).contains(&contracts.len()) || contracts.starts_with('0') {
        return None;
    }
    let line = Line {
        root: symbol[..6].trim_end_matches(' '),
        date: &symbol[6..12],
        option_type: match &symbol[12..13] {
            "C" => OptionType::Call,
            "P" => OptionType::Put,
            _ => return None,
        },
        strike: &symbol[13..],
        side: match side {
            "L" => Side::Long,
            "S" => Side::Short,
            _ => return None,
        },
        contracts,
    };
    let well_formed =
        padded_root(line.root).is_some() && [line.date, line.strike, contracts].into_iter().all(is_digits);
    well_formed.then_some(line)
}

/// What a line says: 22, then 4, then 24.
fn read(line: &[u8], by_name: &HashMap<&str, &Root>) -> Result<Leg, u64> {
    let line = parsed(line).ok_or(22_u64)?;
    let [strike, contracts] = [line.strike, line.contracts].map(number);
    let expiry = 20_000_000 + number(line.date);
    if !is_expiry(expiry) || strike == 0 || contracts > MOST_CONTRACTS {
        return Err(4);
    }
    let root = by_name.get(line.root).ok_or(24_u64)?;
    Ok(Leg {
        group: 0,
        side: line.side,
        option_type: line.option_type,
        style: root.style,
        market: root.market,
        unit_size: root.unit_size,
        underlying: root.underlying,
        strike,
        expiry,
        contracts,
        settlement: root.settlement,
        paid: false,
    })
}

/// Makes holdings of a list, and answers how many records; more than 256 lines are told after all are judged.
pub fn import(root_table: &[u8], list: &[u8], holdings: &mut [u8]) -> Result<usize, Refusal> {
    let roots = roots(root_table)?;
    let by_name: HashMap<&str, &Root> = roots.iter().map(|root| (root.text(), root)).collect();
    let mut table = Vec::new();
    for (place, line) in list.split_inclusive(|byte| *byte == b'\n').enumerate() {
        let leg = read(line, &by_name).map_err(|number| Refusal::new(number, LIST_TABLE, place as u64))?;
        table.extend(leg.to_bytes());
    }
    let records = table.len() / RECORD_BYTES;
    if records > MOST_LINES {
        return Err(Refusal::new(1, 0, 0));
    }
    put(&table, Table::Holdings.number(), holdings)?;
    Ok(records)
}

/// Writes holdings as a list, and answers how many bytes; of each record 4, also for a paid mark, then 24.
pub fn export(root_table: &[u8], holdings: &[u8], list: &mut [u8]) -> Result<usize, Refusal> {
    let roots = roots(root_table)?;
    let by_terms: HashMap<Terms, &Root> = roots.iter().map(|root| (terms_of_root(root), root)).collect();
    tables::check_size(Table::Holdings, holdings)?;
    let mut text = String::new();
    for (place, record) in holdings.chunks_exact(RECORD_BYTES).enumerate() {
        let refused = |number| Refusal::new(number, Table::Holdings.number(), place as u64);
        let leg = Leg::from_bytes(record.try_into().expect("a chunk is one record"))
            .filter(|leg| leg.group == 0 && !leg.paid)
            .ok_or_else(|| refused(4))?;
        let root = by_terms.get(&terms_of_leg(&leg)).ok_or_else(|| refused(24))?;
        text.push_str(&line_of(root, &leg));
    }
    put(text.as_bytes(), LIST_TABLE, list)?;
    Ok(text.len())
}

fn line_of(root: &Root, leg: &Leg) -> String {
    let option_type = match leg.option_type {
        OptionType::Call => 'C',
        OptionType::Put => 'P',
    };
    let side = match leg.side {
        Side::Long => 'L',
        Side::Short => 'S',
    };
    let (root, date) = (root.text(), leg.expiry % 1_000_000);
    format!("{root:<6}{date:06}{option_type}{:08} {side} {}\n", leg.strike, leg.contracts)
}

/// The output from byte 0 of the lent slice, or 17 with the bytes needed.
fn put(output: &[u8], table: u64, lent: &mut [u8]) -> Result<(), Refusal> {
    let room = lent.get_mut(..output.len()).ok_or(Refusal::new(17, table, output.len() as u64))?;
    room.copy_from_slice(output);
    Ok(())
}
