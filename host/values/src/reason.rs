//! Why a call refuses, as a name beside its number in documents 01 and 02.

/// Why a sheet, a table, a file, a fill or a list is refused. The numbers are those of documents 01 and 02, in whose
/// order refusals are looked for; `docs/RULES.md` tells of each. Later rules may bring more.
///
/// ```
/// # use usm_values as usm;
/// use usm::{Reason, Refusal};
/// assert_eq!(Refusal::new(16, 3, 2).reason(), Some(Reason::ClaimNotMargin));
/// assert_eq!(Reason::ClaimNotMargin.number(), 16);
/// ```
#[derive(Clone, Copy, Debug, PartialEq, Eq, PartialOrd, Ord, Hash)]
#[non_exhaustive]
pub enum Reason {
    /// 1: a table is not whole records or over its limit; a file is empty, not whole blocks or over 39;
    /// there is nothing to write.
    WrongSize = 1,
    /// 2: a block's check sum A or B differs; or nothing is kept of a damaged file.
    ChecksDiffer = 2,
    /// 3: any other fault of a block's form, number or order; or what is kept of a damaged file passes a limit.
    BlockOutOfForm = 3,
    /// 4: a field is out of range.
    FieldOutOfRange = 4,
    /// 5: claims are not numbered 1 to n in order, or a placed record names a group above n.
    GroupsMisnumbered = 5,
    /// 6: the group has no leg, or is not one of 1 to 32.
    NoLeg = 6,
    /// 7: a leg has another underlying than its group's first leg.
    UnderlyingsDiffer = 7,
    /// 8: a leg has another style, American or European, than its group's first leg.
    StylesDiffer = 8,
    /// 9: a leg has another market, listed or OTC, than its group's first leg.
    MarketsDiffer = 9,
    /// 10: a leg is of a series, its unit size included, that its group already has on the other side.
    SeriesLongAndShort = 10,
    /// 11: long and short call units of a group are unequal.
    CallUnitsUnequal = 11,
    /// 12: long and short put units of a group are unequal.
    PutUnitsUnequal = 12,
    /// 13: a leg is a short that expires after a long of its group, or a long that expires before a short of it.
    ShortOutlivesLong = 13,
    /// 14: holdings and placement differ in the contracts of a line and side.
    ContractsDiffer = 14,
    /// 15: a short, or a long that is not marked as paid, is not placed.
    NotPlaced = 15,
    /// 16: a claim is not its group's margin.
    ClaimNotMargin = 16,
    /// 17: a lent slice has no room for the output.
    NoRoom = 17,
    /// 18: a fill closes more contracts than are held of its line and side.
    MoreClosedThanHeld = 18,
    /// 19: more than 100,000 contracts of a line and side, or a fill of a 257th line and side.
    TooMuchHeld = 19,
    /// 20: a block's account is zero or not that of the first block; or a zero account was supplied.
    WrongAccount = 20,
    /// 21: a group is not fit for a cash account: not all European, all stated as cash, and of one expiry.
    NotFitForCash = 21,
    /// 22: a line of a list is malformed, or ends without a newline.
    LineMalformed = 22,
    /// 23: a table of roots has a wrong size, or a root that is ill formed, out of range or repeats an earlier one.
    RootsIllFormed = 23,
    /// 24: the root of a line, or the terms of a record, are not in the table of roots.
    NotInRoots = 24,
    /// 25: a credit event binary expires before the valuation date.
    ExpiryBeforeValuation = 25,
}

impl Reason {
    /// All of them, in the order of their numbers.
    pub const ALL: [Reason; 25] = [
        Reason::WrongSize,
        Reason::ChecksDiffer,
        Reason::BlockOutOfForm,
        Reason::FieldOutOfRange,
        Reason::GroupsMisnumbered,
        Reason::NoLeg,
        Reason::UnderlyingsDiffer,
        Reason::StylesDiffer,
        Reason::MarketsDiffer,
        Reason::SeriesLongAndShort,
        Reason::CallUnitsUnequal,
        Reason::PutUnitsUnequal,
        Reason::ShortOutlivesLong,
        Reason::ContractsDiffer,
        Reason::NotPlaced,
        Reason::ClaimNotMargin,
        Reason::NoRoom,
        Reason::MoreClosedThanHeld,
        Reason::TooMuchHeld,
        Reason::WrongAccount,
        Reason::NotFitForCash,
        Reason::LineMalformed,
        Reason::RootsIllFormed,
        Reason::NotInRoots,
        Reason::ExpiryBeforeValuation,
    ];

    /// Its number in documents 01 and 02.
    pub fn number(self) -> u64 {
        self as u64
    }

    /// The reason with this number, if there is one.
    pub fn of_number(number: u64) -> Option<Reason> {
        Reason::ALL.into_iter().find(|reason| reason.number() == number)
    }
}

#[cfg(test)]
mod tests {
    use super::*;

    #[test]
    fn reasons_are_numbered_1_to_25() {
        let numbers: Vec<u64> = Reason::ALL.into_iter().map(Reason::number).collect();
        assert_eq!(numbers, (1..=25).collect::<Vec<u64>>());
        assert!(Reason::ALL.into_iter().all(|reason| Reason::of_number(reason.number()) == Some(reason)));
        assert_eq!([0, 26, u64::MAX].map(Reason::of_number), [None; 3]);
    }
}
