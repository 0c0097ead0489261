//! What can be wrong with a world: one character, one field, one root, one record.

use usm::{MOST_LEGS, MOST_ROOTS, RECORD_BYTES, ROOT_BYTES};
use usm_kit::fields::{put, records, Field, MARKET, PAID, SETTLEMENT, STYLE, UNDERLYING, UNIT_SIZE};

use super::World;
use crate::random::Random;
use crate::values::BAD_IN_LEGS;

/// From where to where a part of a line stands; contracts end before the newline.
type Part = (usize, usize);
const ROOT: Part = (0, 6);
const DATE: Part = (6, 12);
const TYPE: Part = (12, 13);
const STRIKE: Part = (13, 21);
const SIDE: Part = (21, 24);
const CONTRACTS: Part = (24, usize::MAX);
/// A whole line but for its newline.
const LINE: Part = (0, usize::MAX);

/// What may stand in a part of a line, and the answer to it where all else is good and no root is `NOROOT`.
pub const IN_A_LINE: [(Part, &str, u64); 66] = [
    (ROOT, "1AAPL ", 22),
    (ROOT, "      ", 22),
    (ROOT, " AAPL ", 22),
    (ROOT, "A B   ", 22),
    (ROOT, "A    B", 22),
    (ROOT, "aapl  ", 22),
    (ROOT, "AAPL\t ", 22),
    (ROOT, "AA/PL ", 22),
    (ROOT, "AA:PL ", 22),
    (ROOT, "AA@PL ", 22),
    (ROOT, "AA[PL ", 22),
    (ROOT, "NOROOT", 24),
    (DATE, "110229", 4),
    (DATE, "110431", 4),
    (DATE, "111301", 4),
    (DATE, "110001", 4),
    (DATE, "110500", 4),
    (DATE, "110532", 4),
    (DATE, "000000", 4),
    (DATE, "999999", 4),
    (DATE, "120229", 0),
    (DATE, "000101", 0),
    (DATE, "991231", 0),
    (DATE, "11052A", 22),
    (DATE, " 10521", 22),
    (DATE, "11052:", 22),
    (DATE, "1/0521", 22),
    (DATE, "20110521", 22),
    (TYPE, "X", 22),
    (TYPE, "c", 22),
    (TYPE, "p", 22),
    (TYPE, " ", 22),
    (TYPE, "", 22),
    (STRIKE, "00000000", 4),
    (STRIKE, "00000001", 0),
    (STRIKE, "99999999", 0),
    (STRIKE, "0006000A", 22),
    (STRIKE, "   60000", 22),
    (STRIKE, "60000", 22),
    (STRIKE, "000060000", 22),
    (STRIKE, "00060.00", 22),
    (SIDE, " X ", 22),
    (SIDE, " l ", 22),
    (SIDE, " s ", 22),
    (SIDE, "\tL ", 22),
    (SIDE, " L\t", 22),
    (SIDE, " L  ", 22),
    (SIDE, "  L ", 22),
    (SIDE, "L ", 22),
    (SIDE, " LS ", 22),
    (CONTRACTS, "0", 22),
    (CONTRACTS, "007", 22),
    (CONTRACTS, "000001", 22),
    (CONTRACTS, "1234567", 22),
    (CONTRACTS, "0100000", 22),
    (CONTRACTS, "", 22),
    (CONTRACTS, "5 ", 22),
    (CONTRACTS, "5\r", 22),
    (CONTRACTS, "-5", 22),
    (CONTRACTS, "5A", 22),
    (CONTRACTS, "1", 0),
    (CONTRACTS, "100000", 0),
    (CONTRACTS, "100001", 4),
    (CONTRACTS, "999999", 4),
    (LINE, "", 22),
    (LINE, "NOROOT110229C00060000 L 007", 22),
];

/// Bytes of a root that are ill formed or out of range, and where.
pub const IN_A_ROOT: [(usize, &[u8]); 24] = [
    (0, b"      "),
    (0, b"a"),
    (0, b"9"),
    (0, b" A"),
    (0, b"A B"),
    (0, b"\xC1"),
    (1, b"\0"),
    (1, b"/"),
    (1, b":"),
    (1, b"@"),
    (1, b"["),
    (5, b"\n"),
    (6, &[0]),
    (6, &[3]),
    (7, &[0]),
    (7, &[3]),
    (8, &[0, 0]),
    (8, &[0xE9, 3]),
    (8, &[100, 100]),
    (10, &[3]),
    (10, &[255]),
    (11, &[1]),
    (11, &[128]),
    (12, &[0, 0, 0, 0]),
];

/// The terms of a record, as values in range that may be in no root.
const OTHER_TERMS: [(Field, u64); 10] = [
    (STYLE, 1),
    (STYLE, 2),
    (MARKET, 1),
    (MARKET, 2),
    (UNIT_SIZE, 101),
    (UNIT_SIZE, 356),
    (SETTLEMENT, 0),
    (SETTLEMENT, 1),
    (SETTLEMENT, 2),
    (UNDERLYING, 0x0100_0007),
];

/// The list with this in that part of its line `place`.
pub fn with_part(list: &[u8], place: usize, (start, end): Part, text: &str) -> Vec<u8> {
    let mut lines: Vec<Vec<u8>> = list.split_inclusive(|byte| *byte == b'\n').map(<[u8]>::to_vec).collect();
    let line = &mut lines[place];
    let last = line.len() - 1;
    line.splice(start.min(last)..end.min(last), text.bytes());
    lines.concat()
}

/// One character of the list, or one part of a line.
pub fn list(random: &mut Random, list: &mut Vec<u8>) {
    let odd = |random: &mut Random| random.pick(b" \n\r\t0129ABLSCPZacls/:@[`-.\0\x7F\x80\xFF");
    let at = random.below(list.len());
    let lines = list.iter().filter(|byte| **byte == b'\n').count();
    match random.below(14) {
        0 => list.insert(at, odd(random)),
        1 => list.push(odd(random)),
        2 => list.truncate(at),
        _ if lines == 0 => {}
        3 => drop(list.remove(at)),
        4..=6 => list[at] = odd(random),
        _ => {
            let (part, text, _) = random.pick(&IN_A_LINE);
            *list = with_part(list, random.below(lines), part, text);
        }
    }
}

/// One root, or the table as a whole.
pub fn roots(random: &mut Random, table: &mut Vec<u8>) {
    let count = table.len() / ROOT_BYTES;
    let [one, other] = [random.below(count), random.below(count)].map(|root| root * ROOT_BYTES);
    match random.below(12) {
        _ if count == 0 => {}
        0 => table.clear(),
        1 => table.truncate(table.len() - 1 - random.below(15)),
        2 => table.extend((0..1 + random.below(15)).map(|_| b'A')),
        3 => table.extend(vec![b'A'; (MOST_ROOTS + 1 - count) * ROOT_BYTES]),
        4 | 5 => table.copy_within(one..one + 6, other),
        6 | 7 => table.copy_within(one + 6..one + ROOT_BYTES, other + 6),
        8 => table[one + random.below(ROOT_BYTES)] = random.next() as u8,
        // Well formed roots of which a line or a record may miss one.
        9 if count > 1 => drop(table.drain(one..one + ROOT_BYTES)),
        _ => {
            let (at, bytes) = random.pick(&IN_A_ROOT);
            table[one + at..][..bytes.len()].copy_from_slice(bytes);
        }
    }
}

/// One record, or the table as a whole.
pub fn holdings(random: &mut Random, table: &mut Vec<u8>) {
    let count = records(table);
    let (field, value) = match random.below(12) {
        0 => return table.extend((0..1 + random.below(31)).map(|_| 0)),
        1 => return table.resize((MOST_LEGS + random.below(3)) * RECORD_BYTES, 0),
        _ if count == 0 => return,
        2 => (PAID, 1),
        3..=5 => random.pick(&BAD_IN_LEGS),
        6 => ((random.below(RECORD_BYTES), 1), random.next()),
        _ => random.pick(&OTHER_TERMS),
    };
    put(table, random.below(count), field, value);
}

/// A fault or two, mostly of what a call reads beside the roots.
pub fn some(random: &mut Random, world: &mut World) {
    for _ in 0..1 + random.below(2) {
        if random.one_in(4) {
            roots(random, &mut world.roots);
        } else {
            list(random, &mut world.list);
            holdings(random, &mut world.holdings);
        }
    }
}
