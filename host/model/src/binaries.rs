//! "Credit event binaries": document 02, [11], with the tables of circular RG11-039.

use usm_values::{is_expiry, Binary, LongBinary, Refusal, Side, GREATEST_SPREAD, MOST_CONTRACTS};

/// The circular's percentages of the settlement value, in tenths: a row for each range of spreads, a column for
/// each length of time.
type Percentages = [[i64; 4]; 5];

const LONG: Percentages = [
    [5, 10, 20, 35],
    [10, 25, 35, 50],
    [25, 50, 75, 100],
    [50, 75, 100, 125],
    [75, 100, 125, 150], //
];

const SHORT: Percentages =
    [[10, 20, 40, 70], [20, 50, 70, 100], [50, 100, 150, 200], [100, 150, 200, 250], [150, 200, 250, 300]];

/// Where one row ends and the next begins, in basis points.
const EDGES: [u64; 4] = [100, 300, 500, 700];

/// The years that the columns but the last go to.
const YEARS: [u64; 3] = [1, 3, 7];

/// 1,000 dollars, in mills.
const SETTLEMENT: i64 = 1_000_000;

/// The places of a refusal.
const OF_LONG: u64 = 0;
const OF_SHORT: u64 = 1;

/// A day by the calendar; one is before another by its year, then its month, then its day.
#[derive(Clone, Copy, PartialEq, Eq, PartialOrd, Ord)]
struct Day {
    year: u64,
    month: u64,
    day: u64,
}

fn is_leap(year: u64) -> bool {
    year % 4 == 0 && (year % 100 != 0 || year % 400 == 0)
}

fn month_length(year: u64, month: u64) -> u64 {
    match month {
        4 | 6 | 9 | 11 => 30,
        2 => 28 + u64::from(is_leap(year)),
        _ => 31,
    }
}

impl Day {
    fn of(number: u64) -> Option<Day> {
        let real = u32::try_from(number).map_or(false, is_expiry);
        real.then_some(Day { year: number / 10_000, month: number / 100 % 100, day: number % 100 })
    }

    /// The same month and day, so many years on; a missing 29 February is the 28th.
    fn years_on(self, years: u64) -> Day {
        let year = self.year + years;
        Day { year, day: self.day.min(month_length(year, self.month)), ..self }
    }
}

/// A position whose fields are in range.
struct Position {
    percentages: &'static Percentages,
    spread: u64,
    expiry: Day,
    contracts: u64,
}

impl Position {
    fn of(side: Side, binary: Binary) -> Option<Position> {
        let Binary { spread, expiry, contracts, .. } = binary;
        let in_range = spread <= GREATEST_SPREAD && (1..=u64::from(MOST_CONTRACTS)).contains(&contracts);
        let percentages = match side {
            Side::Long => &LONG,
            Side::Short => &SHORT,
        };
        in_range.then_some(Position { percentages, spread, expiry: Day::of(expiry)?, contracts })
    }

    /// What so many of its contracts need. A spread on an edge is past it, an expiry on an anniversary is not.
    fn margin_of(&self, contracts: u64, valued: Day) -> i64 {
        let row = EDGES.iter().filter(|edge| self.spread >= **edge).count();
        let column = YEARS.iter().filter(|years| valued.years_on(**years) < self.expiry).count();
        contracts as i64 * SETTLEMENT * self.percentages[row][column] / 1_000
    }
}

fn refusal(number: u64, place: u64) -> Refusal {
    Refusal::new(number, 0, place)
}

/// 25 at the first that expires before the valuation date.
fn check_expiries(valued: Day, positions: &[(u64, &Position)]) -> Result<(), Refusal> {
    match positions.iter().find(|(_, position)| position.expiry < valued) {
        Some((place, _)) => Err(refusal(25, *place)),
        None => Ok(()),
    }
}

/// The margin of one position, in mills.
pub fn margin(side: Side, spread: u64, valuation: u64, expiry: u64, contracts: u64) -> Result<i64, Refusal> {
    let valued = Day::of(valuation).ok_or(refusal(4, OF_LONG))?;
    let binary = Binary { reference: 0, spread, expiry, contracts };
    let position = Position::of(side, binary).ok_or(refusal(4, OF_LONG))?;
    check_expiries(valued, &[(OF_LONG, &position)])?;
    Ok(position.margin_of(contracts, valued))
}

/// The margin of a long and a short, in mills.
pub fn pair(valuation: u64, long: LongBinary, short: Binary) -> Result<i64, Refusal> {
    let valued = Day::of(valuation).ok_or(refusal(4, OF_LONG))?;
    let bought = Position::of(Side::Long, long.binary).ok_or(refusal(4, OF_LONG))?;
    let written = Position::of(Side::Short, short).ok_or(refusal(4, OF_SHORT))?;
    check_expiries(valued, &[(OF_LONG, &bought), (OF_SHORT, &written)])?;
    let covers = long.binary.reference == short.reference && long.paid && bought.expiry >= written.expiry;
    let matched = if covers { bought.contracts.min(written.contracts) } else { 0 };
    let rest = |position: &Position| position.margin_of(position.contracts - matched, valued);
    Ok(rest(&bought) + rest(&written))
}
