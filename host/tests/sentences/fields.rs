//! Refusal 4: each field of a leg and of a claim out of its range.

use usm::{BLOCK_BYTES, GREATEST_AMOUNT};
use usm_kit::block::{renumber, RECORDS_AT};
use usm_kit::fields::*;

use crate::entry::Case;
use crate::sheets::accepted;

/// Which block of the accepted sheet holds which table.
const HOLDINGS: usize = 0;
const PLACEMENT: usize = 1;
const CLAIMS: usize = 2;

/// The accepted sheet's file with fields of a record set.
fn with(name: &str, block: usize, record: usize, fields: &[(Field, u64)]) -> Case {
    let mut file = accepted().to_file().expect("a file");
    for &(field, value) in fields {
        put(&mut file[block * BLOCK_BYTES + RECORDS_AT..], record, field, value);
    }
    renumber(&mut file);
    (String::from(name), file)
}

pub fn legs() -> Vec<Case> {
    vec![
        with("group of a holding", HOLDINGS, 1, &[(GROUP, 1)]),
        with("group of a placed leg", PLACEMENT, 1, &[(GROUP, 33)]),
        with("side", PLACEMENT, 0, &[(SIDE, 0)]),
        with("type", HOLDINGS, 0, &[(TYPE, 3)]),
        with("style", HOLDINGS, 0, &[(STYLE, 3)]),
        with("market", HOLDINGS, 0, &[(MARKET, 255)]),
        with("unit size", HOLDINGS, 0, &[(UNIT_SIZE, 1_001)]),
        with("underlying", HOLDINGS, 0, &[(UNDERLYING, 0)]),
        with("strike", HOLDINGS, 0, &[(STRIKE, 100_000_000)]),
        with("expiry", HOLDINGS, 0, &[(EXPIRY, 20110229)]),
        with("contracts", HOLDINGS, 0, &[(CONTRACTS, 100_001)]),
        with("settlement", HOLDINGS, 0, &[(SETTLEMENT, 3)]),
        with("paid mark", PLACEMENT, 0, &[(PAID, 2)]),
        with("filler", HOLDINGS, 0, &[(FILLER, 1 << 40)]),
        with(
            "filler beside a settlement and a mark",
            HOLDINGS,
            0,
            &[(SETTLEMENT, 2), (PAID, 1), (FILLER, 1)],
        ),
        with("two fields of a placed leg", PLACEMENT, 2, &[(SIDE, 9), (STRIKE, 0)]),
    ]
}

pub fn claims() -> Vec<Case> {
    vec![
        with("group of a claim", CLAIMS, 1, &[(GROUP, 0)]),
        with("margin", CLAIMS, 1, &[(CLAIM_MARGIN, GREATEST_AMOUNT as u64 + 1)]),
        with("margin of all ones", CLAIMS, 0, &[(CLAIM_MARGIN, u64::MAX)]),
        with("first filler of a claim", CLAIMS, 0, &[((2, 1), 1)]),
        with("second filler of a claim", CLAIMS, 0, &[((16, 1), 1)]),
        with("third filler of a claim", CLAIMS, 0, &[((31, 1), 1)]),
    ]
}
