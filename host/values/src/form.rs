//! The two forms of a sheet file, and where a file comes from.

/// How the blocks of a file are marked.
#[derive(Clone, Copy, Debug, PartialEq, Eq, Hash)]
pub enum Form {
    /// `USM1`: the file does not say of which account it is.
    Old = 1,
    /// `USM2`: each block has the number of its account.
    New = 2,
}

impl Form {
    /// Both, in the order of their numbers.
    pub const ALL: [Form; 2] = [Form::Old, Form::New];

    /// Its number in the calls.
    pub fn number(self) -> u64 {
        self as u64
    }

    /// The form with this number, if there is one.
    pub fn of_number(number: u64) -> Option<Form> {
        Form::ALL.into_iter().find(|form| form.number() == number)
    }

    /// What a block of this form begins with.
    pub fn mark(self) -> [u8; 4] {
        match self {
            Form::Old => *b"USM1",
            Form::New => *b"USM2",
        }
    }

    /// The form of a block that begins so, if it has a mark.
    pub fn of_block(block: &[u8]) -> Option<Form> {
        Form::ALL.into_iter().find(|form| block.starts_with(&form.mark()))
    }
}

/// The form of a file, and its account.
#[derive(Clone, Copy, Debug, PartialEq, Eq, Hash)]
pub struct Origin {
    /// Old or new.
    pub form: Form,
    /// In the new form not 0; in the old form the reader answers 0, and the writer does not look at it.
    pub account: u64,
}

impl Origin {
    /// Of the old form, which has no account.
    pub const OLD: Origin = Origin { form: Form::Old, account: 0 };

    /// Of the new form, with this account.
    pub fn new(account: u64) -> Origin {
        Origin { form: Form::New, account }
    }

    /// Of the new form if there is an account, and of the old form for 0.
    pub fn of_account(account: u64) -> Origin {
        match account {
            0 => Origin::OLD,
            account => Origin::new(account),
        }
    }
}
