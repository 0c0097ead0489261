//! Refusals 11, 12, 14 and 16: two amounts that have to be equal, and are not.

use super::groups::{legs_of, units};
use super::rules::{claimed_and_due, held_and_placed};
use crate::sheet::Sheet;
use usm_values::{OptionType, Reason, Refusal};

/// The two amounts that a refusal found unequal.
#[derive(Clone, Copy, Debug, PartialEq, Eq)]
pub enum Unequal {
    /// 11 and 12: the units of calls, or of puts, that a group is long and short.
    Units {
        /// Of the longs.
        long: i64,
        /// Of the shorts.
        short: i64,
    },
    /// 14: the contracts of one line and side.
    Contracts {
        /// In the holdings.
        held: u64,
        /// In the placement.
        placed: u64,
    },
    /// 16: of a group, in mills.
    Margin {
        /// In its claim.
        claimed: i64,
        /// Its margin.
        due: i64,
    },
}

/// What a refusal of this sheet found unequal, as its sentence says it; none for the other refusals.
///
/// ```
/// use usm::sentences::{unequal, Unequal};
/// use usm::{Claim, Sheet};
/// let sheet = Sheet { claims: vec![Claim { group: 1, margin: 0 }], ..Sheet::default() };
/// assert_eq!(unequal(&sheet, &sheet.check().unwrap_err()), None, "there is no leg");
/// ```
pub fn unequal(sheet: &Sheet, refusal: &Refusal) -> Option<Unequal> {
    let of_type = |option_type| {
        let (long, short) = units(&legs_of(&sheet.placement, refusal.place), option_type);
        Unequal::Units { long, short }
    };
    match (refusal.reason()?, refusal.table) {
        (Reason::CallUnitsUnequal, _) => Some(of_type(OptionType::Call)),
        (Reason::PutUnitsUnequal, _) => Some(of_type(OptionType::Put)),
        (Reason::ContractsDiffer, table) => {
            let legs = if table == 1 { &sheet.holdings } else { &sheet.placement };
            let leg = legs.get(usize::try_from(refusal.place).ok()?)?;
            let (held, placed) = held_and_placed(sheet, leg);
            Some(Unequal::Contracts { held, placed })
        }
        (Reason::ClaimNotMargin, _) => {
            let (claimed, due) = claimed_and_due(sheet, refusal.place)?;
            Some(Unequal::Margin { claimed, due })
        }
        _ => None,
    }
}
