//! Credit event binaries that are timed.

use usm::{Binary, LongBinary, Side};

/// The day on which all are valued.
pub const VALUED: u64 = 20110315;

/// A position in each cell of the circular's two tables.
pub fn cells() -> Vec<(Side, Binary)> {
    let mut cells = Vec::new();
    for side in [Side::Long, Side::Short] {
        for spread in [50, 200, 400, 600, 800] {
            for expiry in [20110915, 20130315, 20160620, 20190101] {
                cells.push((side, Binary { reference: 7, spread, expiry, contracts: 10 }));
            }
        }
    }
    cells
}

/// Each cell's long, paid in full, against the same count and half of it written: matched, and in part.
pub fn pairs() -> Vec<(LongBinary, Binary)> {
    let longs = cells().into_iter().filter(|(side, _)| *side == Side::Long);
    longs
        .flat_map(|(_, binary)| {
            let long = LongBinary { binary, paid: true };
            [10, 5].map(|contracts| (long, Binary { contracts, ..binary }))
        })
        .collect()
}
