//! Why a sheet file is refused.

use super::sheets::of_sheet;
use super::{blocks, fields, size, strangers};
use crate::sheet::Sheet;
use usm_values::{Reason, Refusal};

/// The sentence of a refusal that the check of this file, or its reader, answered.
///
/// ```
/// let text = b"holdings\n";
/// let refusal = usm::check_file(text).unwrap_err();
/// assert_eq!(
///     usm::sentences::of_file(text, &refusal),
///     "this is the text of a sheet and not yet a sheet file: first make one of it, `sheet make TEXT OUT`"
/// );
/// ```
pub fn of_file(file: &[u8], refusal: &Refusal) -> String {
    let sentence = match refusal.reason() {
        Some(Reason::WrongSize) => strangers::sentence(file).or_else(|| size::sentence(file)),
        Some(Reason::ChecksDiffer | Reason::BlockOutOfForm) if refusal.place == 0 => {
            strangers::sentence(file).or_else(|| blocks::sentence(file, refusal))
        }
        Some(Reason::ChecksDiffer | Reason::BlockOutOfForm | Reason::WrongAccount) => {
            blocks::sentence(file, refusal)
        }
        Some(Reason::FieldOutOfRange) => fields::sentence(file, refusal),
        _ => Sheet::from_file(file).ok().map(|sheet| of_sheet(&sheet, refusal)),
    };
    sentence.unwrap_or_else(|| refusal.to_string())
}
