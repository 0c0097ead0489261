//! Refusals 22 and 4 of a line of a list: what should stand where it is wrong.

use std::ops::Range;

use usm_values::{is_expiry, padded_root, GREATEST_STRIKE, MOST_CONTRACTS};

/// Columns of a line, what may stand in them, and how that is said.
struct Part {
    at: Range<usize>,
    holds: fn(&[u8]) -> bool,
    says: &'static str,
}

const EXPIRY: Range<usize> = 6..12;
const STRIKE: Range<usize> = 13..21;
const CONTRACTS_AT: usize = 24;

/// The parts before the contracts, in their order.
const PARTS: [Part; 7] = [
    Part {
        at: 0..6,
        holds: is_root,
        says:
            "columns 1 to 6 must be the root, 1 to 6 of A-Z and 0-9 with a letter first, and blanks behind it",
    },
    Part { at: EXPIRY, holds: are_digits, says: "columns 7 to 12 must be the expiry, YYMMDD" },
    Part { at: 12..13, holds: |byte| byte == b"C" || byte == b"P", says: "column 13 must be C or P" },
    Part { at: STRIKE, holds: are_digits, says: "columns 14 to 21 must be the strike in mills, 8 digits" },
    Part { at: 21..22, holds: is_blank, says: "column 22 must be a blank" },
    Part { at: 22..23, holds: |byte| byte == b"L" || byte == b"S", says: "column 23 must be L or S" },
    Part { at: 23..24, holds: is_blank, says: "column 24 must be a blank" },
];

const CONTRACTS: &str = "contracts are 1 to 100,000, without a leading zero";

/// What is malformed in a line, which is here without its newline; `ended` tells whether it had one.
pub fn form_fault(text: &[u8], ended: bool) -> Option<String> {
    let contracts = text.get(CONTRACTS_AT..).unwrap_or_default();
    let digits = contracts.iter().take_while(|byte| byte.is_ascii_digit()).count();
    let part = PARTS.iter().find(|part| !text.get(part.at.clone()).map_or(false, part.holds));
    let fault = if text.contains(&b'\r') {
        "it has a carriage return, as lists from Windows do; a line ends in a newline alone"
    } else if text.is_empty() {
        "it is empty; a line has a symbol, L or S, and contracts"
    } else if let Some(part) = part {
        part.says
    } else if !(1..=6).contains(&digits) || contracts[0] == b'0' {
        CONTRACTS
    } else if digits < contracts.len() {
        "nothing but a newline may stand behind the contracts"
    } else if !ended {
        "the newline at its end is missing"
    } else {
        return None;
    };
    Some(String::from(fault))
}

/// What is out of range in a line that is well formed.
pub fn field_faults(text: &[u8]) -> Option<String> {
    let (expiry, strike) = (number(text.get(EXPIRY)?)?, number(text.get(STRIKE)?)?);
    let mut faults = Vec::new();
    if !is_expiry(20_000_000 + expiry) {
        faults.push(format!("the expiry must be a real date YYMMDD, and {expiry:06} is none"));
    }
    if !(1..=GREATEST_STRIKE).contains(&strike) {
        faults.push(format!("the strike must be 1 to {GREATEST_STRIKE} mills, and is {strike}"));
    }
    if number(text.get(CONTRACTS_AT..)?)? > MOST_CONTRACTS {
        faults.push(String::from(CONTRACTS));
    }
    (!faults.is_empty()).then(|| faults.join("; "))
}

fn number(digits: &[u8]) -> Option<u32> {
    std::str::from_utf8(digits).ok()?.parse().ok()
}

fn is_root(bytes: &[u8]) -> bool {
    let text = std::str::from_utf8(bytes).unwrap_or_default().trim_end_matches(' ');
    padded_root(text).map_or(false, |name| name == bytes)
}

fn are_digits(bytes: &[u8]) -> bool {
    bytes.iter().all(u8::is_ascii_digit)
}

fn is_blank(bytes: &[u8]) -> bool {
    bytes == b" "
}
