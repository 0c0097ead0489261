//! What became of one sheet file: its verdict, and whose it is.

use usm::numbers::{amount, count};
use usm::{
    check_file, leg_table, margins, read_file, sentences, Accepted, Form, Origin, Refusal, Sheet,
    MOST_CLAIMS, MOST_LEGS, RECORD_BYTES,
};

pub enum Found {
    Accepted(Accepted),
    Refused(Refusal, String),
    /// With the message that tells why it could not be read.
    Unread(String),
}

impl Found {
    /// The verdict on a file's bytes.
    pub fn of(file: &[u8]) -> Found {
        match check_file(file) {
            Ok(accepted) => Found::Accepted(accepted),
            Err(refusal) => Found::Refused(refusal, sentences::of_file(file, &refusal)),
        }
    }

    /// The line for programs, which a file that could not be read does not have.
    pub fn line(&self) -> String {
        match self {
            Found::Accepted(accepted) => accepted.line(),
            Found::Refused(refusal, _) => refusal.line(),
            Found::Unread(_) => String::new(),
        }
    }

    /// The same for people.
    pub fn sentence(&self) -> String {
        match self {
            Found::Accepted(Accepted { groups, total, .. }) => {
                format!("accepted: {}, total margin {}", count(*groups, "group"), amount(*total))
            }
            Found::Refused(_, sentence) => format!("refused: {sentence}"),
            Found::Unread(message) => message.clone(),
        }
    }

    /// How many intrinsic values were worked out for a verdict; a refusal answers with none.
    pub fn work(&self) -> Option<u64> {
        match self {
            Found::Accepted(accepted) => Some(accepted.work),
            Found::Refused(..) => Some(0),
            Found::Unread(_) => None,
        }
    }
}

/// A verdict, and whose it is.
pub struct Judged<'a> {
    pub found: Found,
    /// Form and account, where the reader takes the file.
    pub origin: Option<Origin>,
    /// The bytes that it is about.
    file: &'a [u8],
}

impl Judged<'_> {
    /// What was found of a file with these bytes; of one that was not read there are none.
    pub fn of(found: Found, file: &[u8]) -> Judged<'_> {
        let origin = match found {
            Found::Unread(_) => None,
            _ => origin_of(file),
        };
        Judged { found, origin, file }
    }

    /// The sentence behind whose verdict it is.
    pub fn sentence(&self) -> String {
        let whose = match self.origin {
            Some(Origin { form: Form::New, account }) => format!("account {account} (new form): "),
            Some(Origin { form: Form::Old, .. }) => String::from("no account (old form): "),
            None => String::new(),
        };
        format!("{whose}{}", self.found.sentence())
    }

    /// Of an accepted sheet the margins of groups 1, 2 and so on.
    pub fn margins(&self) -> Option<Vec<i64>> {
        let groups = match self.found {
            Found::Accepted(Accepted { groups, .. }) => groups,
            _ => return None,
        };
        let sheet = Sheet::from_file(self.file).expect("the file of an accepted sheet");
        let mut of_groups = vec![0; groups as usize];
        margins(&leg_table(&sheet.placement), groups, &mut of_groups).expect("groups of an accepted sheet");
        Some(of_groups)
    }
}

/// Where a file comes from, as the reader answers it; its records are not looked at.
fn origin_of(file: &[u8]) -> Option<Origin> {
    const MOST: usize = MOST_LEGS * RECORD_BYTES;
    let (mut holdings, mut placement, mut claims) = ([0; MOST], [0; MOST], [0; MOST_CLAIMS * RECORD_BYTES]);
    let (_, origin) = read_file(file, &mut holdings, &mut placement, &mut claims).ok()?;
    Some(origin)
}
