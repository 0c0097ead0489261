//! Legs: the records of holdings and placement.

use super::{
    is_expiry, u16_at, u32_at, GREATEST_STRIKE, GREATEST_UNIT_SIZE, MOST_CLAIMS, MOST_CONTRACTS, RECORD_BYTES,
};

/// Which way a position is held.
#[derive(Clone, Copy, Debug, PartialEq, Eq, Hash)]
pub enum Side {
    /// Bought: it has value at exercise.
    Long = 1,
    /// Written: it owes that value.
    Short = 2,
}

/// What an option gives the right to do at its strike.
#[derive(Clone, Copy, Debug, PartialEq, Eq, Hash)]
pub enum OptionType {
    /// To buy.
    Call = 1,
    /// To sell.
    Put = 2,
}

/// When an option may be exercised.
#[derive(Clone, Copy, Debug, PartialEq, Eq, Hash)]
pub enum Style {
    /// At any time up to its expiry.
    American = 1,
    /// At its expiry only.
    European = 2,
}

/// Where an option is traded.
#[derive(Clone, Copy, Debug, PartialEq, Eq, Hash)]
pub enum Market {
    /// On an exchange.
    Listed = 1,
    /// Over the counter.
    Otc = 2,
}

/// What an exercise brings, as far as the record says it.
#[derive(Clone, Copy, Debug, PartialEq, Eq, Hash)]
pub enum Settlement {
    /// The record does not say.
    NotStated = 0,
    /// The difference, in money.
    Cash = 1,
    /// The underlying itself.
    Physical = 2,
}

impl Settlement {
    pub(super) fn of_byte(byte: u8) -> Option<Settlement> {
        match byte {
            0 => Some(Settlement::NotStated),
            _ => choice(byte, Settlement::Cash, Settlement::Physical),
        }
    }
}

/// One record of holdings or placement.
///
/// The number fields hold what the record's bytes can hold. A value outside
/// document 01's range is refused (4) by every call that looks at the record.
#[derive(Clone, Copy, Debug, PartialEq, Eq, Hash)]
pub struct Leg {
    /// 1 to 32; 0 in holdings, and for a leg that is not placed.
    pub group: u16,
    /// Long or short.
    pub side: Side,
    /// Call or put.
    pub option_type: OptionType,
    /// American or European.
    pub style: Style,
    /// Listed or OTC.
    pub market: Market,
    /// Units of the underlying in one contract, 1 to 1,000.
    pub unit_size: u16,
    /// The underlying's number, from 1.
    pub underlying: u32,
    /// In mills for one unit of the underlying, 1 to 99,999,999.
    pub strike: u32,
    /// YYYYMMDD as a number, a real date of 2000 to 2099.
    pub expiry: u32,
    /// 1 to 100,000.
    pub contracts: u32,
    /// Cash or physical, or not stated.
    pub settlement: Settlement,
    /// Whether it is marked as paid, as an unplaced long has to be; no part of line or series.
    pub paid: bool,
}

/// Type, strike, expiry and unit size.
pub type Series = (OptionType, u32, u32, u16);

/// Everything that makes two positions the same instrument.
#[derive(Clone, Copy, Debug, PartialEq, Eq, Hash)]
pub struct Line {
    /// Call or put.
    pub option_type: OptionType,
    /// American or European.
    pub style: Style,
    /// Listed or OTC.
    pub market: Market,
    /// Units of the underlying in one contract.
    pub unit_size: u16,
    /// The underlying's number.
    pub underlying: u32,
    /// In mills for one unit of the underlying.
    pub strike: u32,
    /// YYYYMMDD as a number.
    pub expiry: u32,
    /// Cash or physical, or not stated, which is a line of its own.
    pub settlement: Settlement,
}

impl Leg {
    /// The series it is of.
    pub fn series(&self) -> Series {
        (self.option_type, self.strike, self.expiry, self.unit_size)
    }

    /// The line it is of.
    pub fn line(&self) -> Line {
        Line {
            option_type: self.option_type,
            style: self.style,
            market: self.market,
            unit_size: self.unit_size,
            underlying: self.underlying,
            strike: self.strike,
            expiry: self.expiry,
            settlement: self.settlement,
        }
    }

    /// Contracts times unit size: the only way from contracts to units.
    pub fn units(&self) -> i64 {
        i64::from(self.contracts) * i64::from(self.unit_size)
    }

    /// The 32 bytes of the record.
    pub fn to_bytes(&self) -> [u8; RECORD_BYTES] {
        let mut record = [0; RECORD_BYTES];
        record[0..2].copy_from_slice(&self.group.to_le_bytes());
        record[2] = self.side as u8;
        record[3] = self.option_type as u8;
        record[4] = self.style as u8;
        record[5] = self.market as u8;
        record[6..8].copy_from_slice(&self.unit_size.to_le_bytes());
        record[8..12].copy_from_slice(&self.underlying.to_le_bytes());
        record[12..16].copy_from_slice(&self.strike.to_le_bytes());
        record[16..20].copy_from_slice(&self.expiry.to_le_bytes());
        record[20..24].copy_from_slice(&self.contracts.to_le_bytes());
        record[24] = self.settlement as u8;
        record[25] = self.paid.into();
        record
    }

    /// The leg in these 32 bytes, or none if a field is out of range.
    pub fn from_bytes(record: &[u8; RECORD_BYTES]) -> Option<Leg> {
        let leg = Leg {
            group: u16_at(record, 0),
            side: choice(record[2], Side::Long, Side::Short)?,
            option_type: choice(record[3], OptionType::Call, OptionType::Put)?,
            style: choice(record[4], Style::American, Style::European)?,
            market: choice(record[5], Market::Listed, Market::Otc)?,
            unit_size: u16_at(record, 6),
            underlying: u32_at(record, 8),
            strike: u32_at(record, 12),
            expiry: u32_at(record, 16),
            contracts: u32_at(record, 20),
            settlement: Settlement::of_byte(record[24])?,
            paid: match record[25] {
                0 => false,
                1 => true,
                _ => return None,
            },
        };
        let in_range = usize::from(leg.group) <= MOST_CLAIMS
            && (1..=GREATEST_UNIT_SIZE).contains(&leg.unit_size)
            && leg.underlying >= 1
            && (1..=GREATEST_STRIKE).contains(&leg.strike)
            && is_expiry(leg.expiry)
            && (1..=MOST_CONTRACTS).contains(&leg.contracts)
            && record[26..].iter().all(|&byte| byte == 0);
        in_range.then_some(leg)
    }
}

/// A field with the two values 1 and 2.
pub(super) fn choice<T>(byte: u8, one: T, two: T) -> Option<T> {
    match byte {
        1 => Some(one),
        2 => Some(two),
        _ => None,
    }
}

#[cfg(test)]
mod tests {
    use super::*;

    #[test]
    fn a_leg_survives_its_bytes() {
        let leg = Leg {
            group: 32,
            side: Side::Short,
            option_type: OptionType::Put,
            style: Style::European,
            market: Market::Otc,
            unit_size: 1_000,
            underlying: u32::MAX,
            strike: 99_999_999,
            expiry: 20991231,
            contracts: 100_000,
            settlement: Settlement::Physical,
            paid: false,
        };
        for settlement in [Settlement::NotStated, Settlement::Cash, Settlement::Physical] {
            let leg = Leg { settlement, ..leg };
            assert_eq!(Leg::from_bytes(&leg.to_bytes()), Some(leg));
            let paid = Leg { paid: true, ..leg };
            assert_eq!(Leg::from_bytes(&paid.to_bytes()), Some(paid));
            assert_eq!(paid.line(), leg.line());
        }
        for too_much in [Leg { group: 33, ..leg }, Leg { unit_size: 1_001, ..leg }, Leg { strike: 0, ..leg }]
        {
            assert_eq!(Leg::from_bytes(&too_much.to_bytes()), None);
        }
    }
}
