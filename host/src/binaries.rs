//! Credit event binaries (document 02, [11]; circular RG11-039): what a position or a pair needs, and the cell of the
//! circular's tables that it comes from.

use crate::calls::ask;
use crate::ffi;
use usm_values::{Binary, LongBinary, Refusal, Side};

/// The margin of one position in mills: 4 for a field or a date out of range, then 25 for an expiry before the
/// valuation date.
///
/// ```
/// use usm::{binary_margin, Refusal, Side};
/// assert_eq!(binary_margin(Side::Short, 250, 20110315, 20160620, 10), Ok(700_000));
/// assert_eq!(binary_margin(Side::Short, 250, 20110315, 20110314, 10), Err(Refusal::new(25, 0, 0)));
/// ```
pub fn binary_margin(
    side: Side,
    spread: u64,
    valuation: u64,
    expiry: u64,
    contracts: u64,
) -> Result<i64, Refusal> {
    let numbers = [side as u64, spread, valuation, expiry, contracts];
    ask(|answer| ffi::binary_margin(numbers, answer)).map(|[margin, ..]| margin as i64)
}

/// The margin of a long and a short beside each other, in mills. On one reference obligation, the long paid in full
/// and not expiring first, the smaller count is matched and needs nothing.
///
/// 4 for the long, with the valuation date, then for the short; then 25 for the long and for the short. The place is
/// 0 for the long and 1 for the short.
///
/// ```
/// use usm::{binary_pair, Binary, LongBinary};
/// let short = Binary { reference: 7, spread: 250, expiry: 20160620, contracts: 10 };
/// let long = LongBinary { binary: Binary { contracts: 8, ..short }, paid: true };
/// assert_eq!(binary_pair(20110315, long, short), Ok(140_000));
/// ```
pub fn binary_pair(valuation: u64, long: LongBinary, short: Binary) -> Result<i64, Refusal> {
    let LongBinary { binary: Binary { reference, spread, expiry, contracts }, paid } = long;
    let long = [reference, spread, expiry, contracts, paid.into()];
    let short = [short.reference, short.spread, short.expiry, short.contracts];
    ask(|answer| ffi::binary_pair(valuation, long, short, answer)).map(|[margin, ..]| margin as i64)
}

/// The rows of the circular's tables, by the spread in basis points. A spread on an edge is in the higher row.
pub const SPREADS: [&str; 5] = ["0 - 100", "100 - 300", "300 - 500", "500 - 700", "700 & above"];

/// Their columns, by the length of time until expiration.
pub const TIMES: [&str; 4] = ["1 year or less", "over 1 to 3 years", "over 3 to 7 years", "over 7 years"];

/// The lowest spread of each row.
const LOWEST: [u64; SPREADS.len()] = [0, 100, 300, 500, 700];

/// The last expiry of each column, for what is valued on the first day there is.
const VALUED: u64 = 20000101;
const LATEST: [u64; TIMES.len()] = [20010101, 20030101, 20070101, 20991231];

/// A cell of the circular's tables: its places in [`SPREADS`] and in [`TIMES`].
#[derive(Clone, Copy, Debug, PartialEq, Eq)]
pub struct Cell {
    /// By the spread.
    pub row: usize,
    /// By the time.
    pub column: usize,
}

impl Cell {
    /// What one contract of this cell needs, in mills.
    pub fn of_one(self, side: Side) -> i64 {
        binary_margin(side, LOWEST[self.row], VALUED, LATEST[self.column], 1).expect("a cell's own position")
    }
}

/// The cell that a position's margin comes from, or the refusal of its spread or its dates. The library itself is
/// asked: no two rows need the same in a column, nor two columns in a row, so the cell tells where its margin is from.
///
/// ```
/// use usm::{binary_cell, SPREADS, TIMES};
/// let cell = binary_cell(100, 20110315, 20120315)?;
/// assert_eq!((SPREADS[cell.row], TIMES[cell.column]), ("100 - 300", "1 year or less"));
/// # Ok::<(), usm::Refusal>(())
/// ```
pub fn binary_cell(spread: u64, valuation: u64, expiry: u64) -> Result<Cell, Refusal> {
    let one = |spread, expiry| binary_margin(Side::Long, spread, valuation, expiry, 1);
    one(spread, expiry)?;
    let (by_spread, by_time) = (one(spread, valuation)?, one(0, expiry)?);
    let row = (0..SPREADS.len()).find(|&row| Cell { row, column: 0 }.of_one(Side::Long) == by_spread);
    let column = (0..TIMES.len()).find(|&column| Cell { row: 0, column }.of_one(Side::Long) == by_time);
    Ok(Cell { row: row.expect("a row of the table"), column: column.expect("a column of the table") })
}
