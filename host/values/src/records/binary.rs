//! Positions in credit event binaries (document 02, [11]), which stand in no table.

/// Greatest credit default swap spread, in basis points.
pub const GREATEST_SPREAD: u64 = 100_000;

/// A position in one credit event binary. Nothing is held against its range before a call is asked.
#[derive(Clone, Copy, Debug, PartialEq, Eq)]
pub struct Binary {
    /// The number of its reference obligation: any.
    pub reference: u64,
    /// The credit default swap spread of its reference entity, in basis points: 0 to [`GREATEST_SPREAD`].
    pub spread: u64,
    /// A date YYYYMMDD from 20000101 to 20991231, not before the valuation date.
    pub expiry: u64,
    /// 1 to [`MOST_CONTRACTS`](super::MOST_CONTRACTS).
    pub contracts: u64,
}

/// The long of a pair.
#[derive(Clone, Copy, Debug, PartialEq, Eq)]
pub struct LongBinary {
    /// The position.
    pub binary: Binary,
    /// Whether it is paid for in full.
    pub paid: bool,
}
