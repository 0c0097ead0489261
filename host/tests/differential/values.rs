//! Values past and at the ends of the ranges of a record's fields.

use usm_kit::fields::*;

/// Values past the ranges of a leg's fields, just past or far; group 1 is so in holdings.
pub const BAD_IN_LEGS: [(Field, u64); 32] = [
    (GROUP, 33),
    (GROUP, 0x0100),
    (GROUP, 1),
    (SIDE, 0),
    (SIDE, 3),
    (TYPE, 0),
    (TYPE, 3),
    (STYLE, 0),
    (STYLE, 255),
    (MARKET, 0),
    (MARKET, 3),
    (UNIT_SIZE, 0),
    (UNIT_SIZE, 1_001),
    (UNDERLYING, 0),
    (STRIKE, 0),
    (STRIKE, 100_000_000),
    (EXPIRY, 19991231),
    (EXPIRY, 21000101),
    (EXPIRY, 20110229),
    (EXPIRY, 20110431),
    (EXPIRY, 20110500),
    (EXPIRY, 20111301),
    (EXPIRY, 20110001),
    (EXPIRY, 0),
    (CONTRACTS, 0),
    (CONTRACTS, 100_001),
    (SETTLEMENT, 3),
    (SETTLEMENT, 255),
    (PAID, 2),
    (PAID, 255),
    (FILLER, 1),
    (FILLER, 1 << 40),
];

/// Values past the ranges of a claim's fields.
pub const BAD_IN_CLAIMS: [(Field, u64); 10] = [
    (GROUP, 0),
    (GROUP, 33),
    (GROUP, 0x0101),
    ((2, 6), 1),
    ((2, 6), 1 << 40),
    (CLAIM_MARGIN, 2_560_000_000_000_000_001),
    (CLAIM_MARGIN, u64::MAX),
    (CLAIM_MARGIN, 1 << 63),
    ((16, 8), 1),
    ((24, 8), 1 << 56),
];

/// Values at the ends of the ranges of a leg's fields, which are good.
pub const AT_THE_LIMIT: [(Field, u64); 9] = [
    (CONTRACTS, 100_000),
    (UNIT_SIZE, 1_000),
    (STRIKE, 99_999_999),
    (STRIKE, 1),
    (EXPIRY, 20991231),
    (EXPIRY, 20120229),
    (UNDERLYING, 0xFFFF_FFFF),
    (SETTLEMENT, 2),
    (PAID, 1),
];
