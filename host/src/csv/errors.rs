//! Where a CSV is no table of ours, by row and column as a spreadsheet counts them.

use std::error::Error;
use std::fmt::{self, Display};

use crate::text::{quoted, Errors};

/// One cell, row or column that is wrong. Rows and columns count from 1; the names of the columns are row 1.
#[derive(Clone, Debug, PartialEq, Eq)]
pub struct CellError {
    /// The row.
    pub row: usize,
    /// The column, unless the row as a whole is wrong.
    pub column: Option<usize>,
    /// The name of the column; empty where it has none.
    pub name: String,
    /// What is wrong.
    pub wrong: String,
}

impl CellError {
    /// About a row as a whole.
    pub(super) fn of_row(row: usize, wrong: String) -> CellError {
        CellError { row, column: None, name: String::new(), wrong }
    }
}

impl Display for CellError {
    fn fmt(&self, f: &mut fmt::Formatter<'_>) -> fmt::Result {
        write!(f, "row {}", self.row)?;
        if let Some(column) = self.column {
            write!(f, ", column {column}")?;
        }
        if !self.name.is_empty() {
            write!(f, " ({})", self.name)?;
        }
        write!(f, ": {}", self.wrong)
    }
}

impl Error for CellError {}

/// All that is wrong with a CSV, in the order of its rows: at most one error a row.
pub type CellErrors = Errors<CellError>;

/// A cell as a message quotes it.
pub(super) fn found(cell: &str) -> String {
    match cell {
        "" => String::from("an empty cell"),
        cell => quoted(cell),
    }
}
