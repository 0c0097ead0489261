//! Why a sheet is refused, or a group of it.

use super::{groups, legs, rules};
use crate::sheet::Sheet;
use usm_values::{Reason, Refusal};

/// The sentence of a refusal that a call on this sheet answered.
///
/// ```
/// use usm::{sentences, Claim, Sheet};
/// let sheet = Sheet { claims: vec![Claim { group: 1, margin: 0 }], ..Sheet::default() };
/// let refusal = sheet.check().unwrap_err();
/// assert_eq!(sentences::of_sheet(&sheet, &refusal), "group 1 has no leg in the placement");
/// ```
pub fn of_sheet(sheet: &Sheet, refusal: &Refusal) -> String {
    let sentence = match refusal.reason() {
        Some(reason @ (Reason::GroupsMisnumbered | Reason::ContractsDiffer | Reason::NotPlaced)) => {
            rules::sentence(sheet, refusal, reason)
        }
        Some(Reason::ClaimNotMargin) => rules::claim_sentence(sheet, refusal.place),
        Some(reason) => legs::sentence(&sheet.placement, refusal.place, reason)
            .or_else(|| groups::sentence(&sheet.placement, refusal.place, reason)),
        None => None,
    };
    sentence.unwrap_or_else(|| refusal.to_string())
}

/// The place of the earlier leg that the leg of a refusal does not go with (7, 8, 9, 10 and 13), in the placement.
pub fn earlier_leg(sheet: &Sheet, refusal: &Refusal) -> Option<usize> {
    let (at, _) = legs::earlier(&sheet.placement, refusal.place, refusal.reason()?)?;
    usize::try_from(at).ok()
}
