//! Fills: what a day's trading did to the holdings.

use super::leg::choice;
use super::{Leg, RECORD_BYTES};

/// Where in a fill its action stands; in a leg the byte is filler.
pub const ACTION_AT: usize = 26;

/// What a fill does with the lot of its side.
#[derive(Clone, Copy, Debug, PartialEq, Eq, Hash)]
pub enum Action {
    /// Adds to it, or begins it.
    Open = 1,
    /// Takes from it.
    Close = 2,
}

/// One fill: so many contracts of a line and side, opened or closed.
#[derive(Clone, Copy, Debug, PartialEq, Eq, Hash)]
pub struct Fill {
    /// Open or close.
    pub action: Action,
    /// Line, side and contracts; its group is 0, as in holdings, and it has no paid mark.
    pub leg: Leg,
}

impl Fill {
    /// The 32 bytes of the record.
    pub fn to_bytes(&self) -> [u8; RECORD_BYTES] {
        let mut record = self.leg.to_bytes();
        record[ACTION_AT] = self.action as u8;
        record
    }

    /// The fill in these 32 bytes, or none if a field is out of range.
    pub fn from_bytes(record: &[u8; RECORD_BYTES]) -> Option<Fill> {
        let action = choice(record[ACTION_AT], Action::Open, Action::Close)?;
        let mut held = *record;
        held[ACTION_AT] = 0;
        Leg::from_bytes(&held).filter(|leg| leg.group == 0 && !leg.paid).map(|leg| Fill { action, leg })
    }
}

#[cfg(test)]
mod tests {
    use super::*;
    use crate::{Market, OptionType, Settlement, Side, Style};

    #[test]
    fn a_fill_survives_its_bytes() {
        let leg = Leg {
            group: 0,
            side: Side::Short,
            option_type: OptionType::Put,
            style: Style::American,
            market: Market::Listed,
            unit_size: 100,
            underlying: 7,
            strike: 50_000,
            expiry: 20110521,
            contracts: 1,
            settlement: Settlement::NotStated,
            paid: false,
        };
        for action in [Action::Open, Action::Close] {
            let fill = Fill { action, leg };
            assert_eq!(Fill::from_bytes(&fill.to_bytes()), Some(fill));
            for other in [Leg { group: 1, ..leg }, Leg { paid: true, ..leg }] {
                assert_eq!(Fill::from_bytes(&Fill { leg: other, ..fill }.to_bytes()), None);
            }
        }
        assert_eq!(Fill::from_bytes(&leg.to_bytes()), None, "a fill has an action");
    }
}
