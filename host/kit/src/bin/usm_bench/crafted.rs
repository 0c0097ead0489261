//! Sheets that are made to be slow, or to be refused where the search for a refusal ends first or last.

use usm::{Leg, Sheet, Side, MOST_LEGS};
use usm_kit::accounts::{in_group, leg, paid};

use crate::inputs::claimed;

/// The library finds lines through buckets by a remainder by this: strikes that many mills apart
/// fall into one bucket.
const BUCKETS: u32 = 509;

/// A later expiry than document 01's.
const LATER: u32 = 20110618;

/// Unplaced longs that are paid, held as they stand in the placement: nearly all the time goes into lines.
fn unplaced(lines: Vec<Leg>) -> Sheet {
    claimed(Sheet { holdings: lines.clone(), placement: lines, ..Sheet::default() }, 0)
}

/// As many longs as a table takes, at strikes `step` mills apart.
fn longs(lowest: u32, step: u32) -> Vec<Leg> {
    (0..MOST_LEGS as u32).map(|index| paid(Leg { strike: lowest + step * index, ..leg("L50c") })).collect()
}

pub fn all_different() -> Sheet {
    unplaced(longs(1, 1))
}

pub fn one_line() -> Sheet {
    unplaced(longs(1, 0))
}

pub fn one_bucket() -> Sheet {
    unplaced(longs(1, BUCKETS))
}

/// No line of the holdings is in the placement, and they differ in unit size alone, which is the last
/// thing that the library tells two lines of a bucket apart by: 14 at holding 0.
pub fn sizes_uneven() -> Sheet {
    let sized = |first| (first..).zip(longs(1, 0)).map(|(unit_size, leg)| Leg { unit_size, ..leg }).collect();
    Sheet { holdings: sized(1), placement: sized(1 + MOST_LEGS as u16), ..Sheet::default() }
}

/// One contract more is held than placed in this record: 14 there.
pub fn uneven_at(record: usize) -> Sheet {
    let mut sheet = all_different();
    sheet.holdings[record].contracts += 1;
    sheet
}

/// One group of one strike, whose legs differ in unit size, the shorts expiring first. Every pair of legs has
/// to be looked at for a doubled series, and all lines share a bucket.
pub fn one_strike() -> Sheet {
    one_group(|index| {
        let short = Leg { side: Side::Short, unit_size: index as u16 + 1, ..leg("L50c") };
        [Leg { side: Side::Long, expiry: LATER, ..short }, short]
    })
}

/// The slowest sheet that a search has found, over the number of groups, how often a strike comes back,
/// the order in which strikes stand and whether lines share a bucket: one group, every strike another,
/// in mixed order, all lines of one bucket.
pub fn worst_found() -> Sheet {
    one_group(|index| {
        // 37 has no common factor with the number of pairs, so each comes up once.
        let place = 2 * (index * 37 % PAIRS) as u32;
        let long = Leg { strike: 1 + BUCKETS * place, ..leg("L50c") };
        [long, Leg { side: Side::Short, strike: long.strike + BUCKETS, ..long }]
    })
}

/// As many pairs of a long and a short as a table takes.
const PAIRS: usize = MOST_LEGS / 2;

fn one_group(pair: impl Fn(usize) -> [Leg; 2]) -> Sheet {
    let placement: Vec<Leg> = (0..PAIRS).flat_map(pair).collect();
    let holdings = placement.iter().map(|leg| in_group(0, *leg)).collect();
    claimed(Sheet { holdings, placement, ..Sheet::default() }, 1)
}
