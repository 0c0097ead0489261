//! Where a text is no sheet, and what was expected there.

use std::error::Error;
use std::fmt::{self, Debug, Display};

use super::escape::quoted;

/// One place where a text is no sheet. Lines and columns count from 1.
#[derive(Clone, Debug, PartialEq, Eq)]
pub struct TextError {
    /// The line.
    pub line: usize,
    /// The character in the line.
    pub column: usize,
    /// What would have been right there.
    pub expected: String,
    /// The word found, or none at the end of a line.
    pub found: Option<String>,
}

impl Display for TextError {
    fn fmt(&self, f: &mut fmt::Formatter<'_>) -> fmt::Result {
        write!(f, "line {}, column {}: expected {}, ", self.line, self.column, self.expected)?;
        match &self.found {
            Some(word) => write!(f, "found {}", quoted(word)),
            None => write!(f, "found the end of the line"),
        }
    }
}

impl Error for TextError {}

/// Errors in the order in which they stand: at most [`Errors::MOST_LISTED`] of them are listed.
#[derive(Clone, Debug, PartialEq, Eq)]
pub struct Errors<E> {
    listed: Vec<E>,
    unlisted: usize,
}

/// All that is wrong with a text, in the order of its lines: at most one error a line.
pub type TextErrors = Errors<TextError>;

impl<E> Default for Errors<E> {
    fn default() -> Errors<E> {
        Errors { listed: Vec::new(), unlisted: 0 }
    }
}

impl<E> Errors<E> {
    /// Errors behind so many are counted only.
    pub const MOST_LISTED: usize = 20;

    /// Adds one behind the others.
    pub fn add(&mut self, error: E) {
        if self.listed.len() < Self::MOST_LISTED {
            self.listed.push(error);
        } else {
            self.unlisted += 1;
        }
    }

    /// The first errors; of a text that is refused there is at least one.
    pub fn listed(&self) -> &[E] {
        &self.listed
    }

    /// How many more there are.
    pub fn unlisted(&self) -> usize {
        self.unlisted
    }
}

/// One error a line, and a last line that counts those not listed.
impl<E: Display> Display for Errors<E> {
    fn fmt(&self, f: &mut fmt::Formatter<'_>) -> fmt::Result {
        for (index, error) in self.listed.iter().enumerate() {
            write!(f, "{}{error}", if index > 0 { "\n" } else { "" })?;
        }
        match self.unlisted {
            0 => Ok(()),
            1 => write!(f, "\nand 1 more error"),
            more => write!(f, "\nand {more} more errors"),
        }
    }
}

impl<E: Debug + Display> Error for Errors<E> {}
