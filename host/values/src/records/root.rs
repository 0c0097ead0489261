//! Roots: what the first six characters of an option symbol stand for (document 02, [9]).

use super::leg::{choice, Market, Settlement, Style};
use super::{u16_at, u32_at, GREATEST_UNIT_SIZE};

/// Bytes of a root's record.
pub const ROOT_BYTES: usize = 16;
/// Characters of a root, its blanks included.
pub const ROOT_NAME_BYTES: usize = 6;

/// One record of a table of roots: a root and the five terms that it stands for.
///
/// As in a [`super::Leg`], the fields hold what the record's bytes can hold; what is out of range is
/// refused (23).
#[derive(Clone, Copy, Debug, PartialEq, Eq, Hash)]
pub struct Root {
    /// 1 to 6 of A-Z and 0-9, a letter first, padded right with blanks: [`padded_root`] makes it of a text.
    pub name: [u8; ROOT_NAME_BYTES],
    /// American or European.
    pub style: Style,
    /// Listed or OTC.
    pub market: Market,
    /// Units of the underlying in one contract, 1 to 1,000.
    pub unit_size: u16,
    /// Cash or physical, or not stated.
    pub settlement: Settlement,
    /// The underlying's number, from 1.
    pub underlying: u32,
}

impl Root {
    /// The 16 bytes of the record.
    pub fn to_bytes(&self) -> [u8; ROOT_BYTES] {
        let mut record = [0; ROOT_BYTES];
        record[..6].copy_from_slice(&self.name);
        record[6] = self.style as u8;
        record[7] = self.market as u8;
        record[8..10].copy_from_slice(&self.unit_size.to_le_bytes());
        record[10] = self.settlement as u8;
        record[12..].copy_from_slice(&self.underlying.to_le_bytes());
        record
    }

    /// The root in these 16 bytes, or none if it is ill formed or a field is out of range.
    pub fn from_bytes(record: &[u8; ROOT_BYTES]) -> Option<Root> {
        let root = Root {
            name: record[..6].try_into().expect("six bytes"),
            style: choice(record[6], Style::American, Style::European)?,
            market: choice(record[7], Market::Listed, Market::Otc)?,
            unit_size: u16_at(record, 8),
            settlement: Settlement::of_byte(record[10])?,
            underlying: u32_at(record, 12),
        };
        let in_range = padded_root(root.text()) == Some(root.name)
            && (1..=GREATEST_UNIT_SIZE).contains(&root.unit_size)
            && record[11] == 0
            && root.underlying >= 1;
        in_range.then_some(root)
    }

    /// Its name without the blanks behind it; empty if that is no text.
    ///
    /// ```
    /// # use usm_values::{padded_root, Market, Root, Settlement, Style};
    /// # let root = Root { name: padded_root("SPX").unwrap(), style: Style::European, market: Market::Listed,
    /// #     unit_size: 100, settlement: Settlement::Cash, underlying: 7 };
    /// assert_eq!((&root.name, root.text()), (b"SPX   ", "SPX"));
    /// ```
    pub fn text(&self) -> &str {
        std::str::from_utf8(&self.name).unwrap_or("").trim_end_matches(' ')
    }
}

/// A root's name as six characters, if the text is one: 1 to 6 of A-Z and 0-9, a letter first.
///
/// ```
/// # use usm_values as usm;
/// assert_eq!(usm::padded_root("BRK1"), Some(*b"BRK1  "));
/// assert_eq!(["", "1BRK", "brk", "BR K", "TOOLONG"].map(usm::padded_root), [None; 5]);
/// ```
pub fn padded_root(text: &str) -> Option<[u8; ROOT_NAME_BYTES]> {
    let well_formed = (1..=ROOT_NAME_BYTES).contains(&text.len())
        && text.starts_with(|c: char| c.is_ascii_uppercase())
        && text.chars().all(|c| c.is_ascii_uppercase() || c.is_ascii_digit());
    well_formed.then(|| {
        let mut name = [b' '; ROOT_NAME_BYTES];
        name[..text.len()].copy_from_slice(text.as_bytes());
        name
    })
}

#[cfg(test)]
mod tests {
    use super::*;

    const GREATEST: Root = Root {
        name: *b"ABC123",
        style: Style::European,
        market: Market::Otc,
        unit_size: 1_000,
        settlement: Settlement::Physical,
        underlying: u32::MAX,
    };

    #[test]
    fn a_root_survives_its_bytes() {
        for settlement in [Settlement::NotStated, Settlement::Cash, Settlement::Physical] {
            for name in [*b"ABC123", *b"A     ", *b"Z9    "] {
                let root = Root { name, settlement, ..GREATEST };
                assert_eq!(Root::from_bytes(&root.to_bytes()), Some(root));
            }
        }
    }

    #[test]
    fn what_is_ill_formed_or_out_of_range_is_no_root() {
        let names =
            [b"      ", b" A    ", b"A B   ", b"1A    ", b"a     ", b"A\0    ", b"A\xFF    ", b"A-    "];
        for name in names {
            assert_eq!(Root::from_bytes(&Root { name: *name, ..GREATEST }.to_bytes()), None, "{name:?}");
        }
        for (at, byte) in [(6, 0), (6, 3), (7, 0), (7, 3), (8, 0xE9), (10, 3), (11, 1)] {
            let mut record = GREATEST.to_bytes();
            record[at] = byte;
            assert_eq!(Root::from_bytes(&record), None, "byte {at} is {byte}");
        }
        assert_eq!(Root::from_bytes(&Root { unit_size: 0, ..GREATEST }.to_bytes()), None);
        assert_eq!(Root::from_bytes(&Root { underlying: 0, ..GREATEST }.to_bytes()), None);
    }
}
