//! Why a file is not moved to the other form.

use super::files::of_file;
use crate::sheet::Sheet;
use usm_values::{Form, Origin, Reason, Refusal};

/// The sentence of a refusal that the move of this file to this form and account answered.
///
/// ```
/// use usm::{sentences, Claim, Origin, Sheet};
/// let claims = vec![Claim { group: 1, margin: 0 }];
/// let file = Sheet { account: 7, claims, ..Sheet::default() }.to_file()?;
/// let refusal = usm::move_to_new(&file, 8, &mut []).unwrap_err();
/// assert_eq!(
///     sentences::of_move(&file, Origin::new(8), &refusal),
///     "the file is of the new form already, of account 7"
/// );
/// # Ok::<(), usm::Refusal>(())
/// ```
pub fn of_move(file: &[u8], to: Origin, refusal: &Refusal) -> String {
    let wanted = to.form == Form::New && to.account == 0 && refusal.reason() == Some(Reason::WrongAccount);
    if wanted {
        return String::from("the account number to be written is 0; accounts are numbered from 1");
    }
    match (refusal.reason(), Sheet::from_file(file)) {
        // The reader takes the file, so its form is all that can be wrong.
        (Some(Reason::BlockOutOfForm), Ok(Sheet { account: 0, .. })) => {
            String::from("the file is of the old form already")
        }
        (Some(Reason::BlockOutOfForm), Ok(sheet)) => {
            format!("the file is of the new form already, of account {}", sheet.account)
        }
        _ => of_file(file, refusal),
    }
}
