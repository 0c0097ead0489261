//! The measures of a drawing: from mills to the numbers of the picture.

/// The picture's own measures; a phone shows one of them as about one of its pixels.
pub const WIDTH: f64 = 360.0;
pub const HEIGHT: f64 = 240.0;
const LEFT: f64 = 24.0;
const RIGHT: f64 = 352.0;
const TOP: f64 = 28.0;
/// Below it there is room for two lines of words before the axis.
const BOTTOM: f64 = 162.0;

/// What a drawing shows: prices from the left end to the right one, nets from the lowest to the highest.
pub struct Scale {
    pub prices: (i64, i64),
    pub nets: (i128, i128),
}

impl Scale {
    /// For the rows of a worksheet, which has at least one, and a margin.
    pub fn of(rows: &[(u32, i64)], margin: i64) -> Scale {
        let strikes = || rows.iter().map(|(strike, _)| i64::from(*strike));
        let (lowest, highest) = (strikes().min().unwrap_or(0), strikes().max().unwrap_or(0));
        // So much on either side that the ends show; of a single strike there is no width to go by.
        let side = if lowest < highest { (highest - lowest + 4) / 5 } else { (lowest + 4) / 5 };
        let nets = || rows.iter().map(|(_, net)| i128::from(*net)).chain([0, -i128::from(margin)]);
        let (low, high) = (nets().min().unwrap_or(0), nets().max().unwrap_or(0));
        // Where nothing is gained or lost zero is in the middle.
        let room = i128::from(low == high);
        Scale { prices: ((lowest - side).max(0), highest + side), nets: (low - room, high + room) }
    }

    pub fn x(&self, price: i64) -> f64 {
        let (first, last) = self.prices;
        LEFT + (price - first) as f64 / (last - first) as f64 * (RIGHT - LEFT)
    }

    pub fn y(&self, net: impl Into<i128>) -> f64 {
        let (low, high) = self.nets;
        BOTTOM - (net.into() - low) as f64 / (high - low) as f64 * (BOTTOM - TOP)
    }

    /// Left, top, right and bottom of what the prices and nets are drawn in.
    pub fn field(&self) -> String {
        [LEFT, TOP, RIGHT, BOTTOM].map(|side| side.to_string()).join(" ")
    }

    pub fn sides(&self) -> (f64, f64) {
        (LEFT, RIGHT)
    }
}

/// A number of the picture as it is written there.
pub fn written(number: f64) -> String {
    format!("{number:.2}")
}
