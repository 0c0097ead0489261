//! The columns of a table by their names, and the cells of a row.

use std::fmt::Display;
use std::ops::RangeInclusive;

use super::cells::{rows, Rows};
use super::errors::{found, CellError, CellErrors};
use crate::text::{digits, Names};

/// A column: its name, and whether it may be left out.
pub struct Column {
    pub name: &'static str,
    pub optional: bool,
}

/// The column of this name, which has to be there.
pub const fn needed(name: &'static str) -> Column {
    Column { name, optional: false }
}

/// The column of this name, which may be left out.
pub const fn optional(name: &'static str) -> Column {
    Column { name, optional: true }
}

/// Reads a table of at most so many records, called `what`: each row by itself, so that an error in one does not keep
/// the others from being looked at.
pub fn table<T>(
    text: &str,
    columns: &[Column],
    most: usize,
    what: &str,
    read: impl Fn(&Row) -> Result<T, CellError>,
) -> Result<Vec<T>, CellErrors> {
    let mut errors = CellErrors::default();
    let mut records = Vec::new();
    match named_rows(text, columns) {
        Err(error) => errors.add(error),
        Ok((names, Rows { separator, rows })) => {
            for (place, (number, cells)) in rows.iter().skip(1).enumerate() {
                let row = Row { number: *number, names: &names, cells, separator };
                if place == most {
                    errors.add(CellError::of_row(*number, format!("expected no more than {most} {what}")));
                    break;
                }
                match row.without_strays().and_then(|()| read(&row)) {
                    Ok(record) => records.push(record),
                    Err(error) => errors.add(error),
                }
            }
        }
    }
    match errors.listed() {
        [] => Ok(records),
        _ => Err(errors),
    }
}

/// The rows, the first of which has names, and the column that each name stands for.
fn named_rows(text: &str, columns: &[Column]) -> Result<(Vec<&'static str>, Rows), CellError> {
    let rows = rows(text)?;
    let (number, head) = match rows.rows.first() {
        Some((number, head)) => (*number, head),
        None => {
            return Err(CellError::of_row(
                1,
                String::from("expected the names of the columns, found nothing"),
            ))
        }
    };
    let mut names = Vec::new();
    for cell in head {
        let name = columns.iter().map(|column| column.name).find(|name| cell.eq_ignore_ascii_case(name));
        let wrong = match name {
            Some(name) if names.contains(&name) => Some(format!("there is a column {name} already")),
            None if !cell.is_empty() => Some(format!("expected {}, found {}", one_of(columns), found(cell))),
            _ => None,
        };
        if let Some(wrong) = wrong {
            return Err(CellError { row: number, column: Some(names.len() + 1), name: String::new(), wrong });
        }
        names.push(name.unwrap_or_default());
    }
    let missing = columns.iter().filter(|column| !column.optional && !names.contains(&column.name));
    let missing: Vec<&str> = missing.map(|column| column.name).collect();
    match missing.as_slice() {
        [] => Ok((names, rows)),
        missing => {
            Err(CellError::of_row(number, format!("these columns are missing: {}", missing.join(", "))))
        }
    }
}

fn one_of(columns: &[Column]) -> String {
    let names: Vec<&str> = columns.iter().map(|column| column.name).collect();
    format!("the name of a column ({})", names.join(", "))
}

/// The cells of one row, by the names of their columns.
pub struct Row<'a> {
    number: usize,
    names: &'a [&'static str],
    cells: &'a [String],
    separator: char,
}

impl Row<'_> {
    /// A cell, which is empty where the row ends before it or there is no such column.
    pub fn cell(&self, name: &str) -> &str {
        let column = self.names.iter().position(|other| *other == name);
        column.and_then(|column| self.cells.get(column)).map_or("", String::as_str)
    }

    /// A number with a decimal point. Where semicolons part the cells a comma is one, too, and never stands between
    /// thousands: three digits behind it are what a strike is shown with.
    pub fn decimal(&self, name: &str) -> String {
        match self.separator {
            ';' => self.cell(name).replace(',', "."),
            _ => String::from(self.cell(name)),
        }
    }

    pub fn wrong(&self, name: &str, expected: &str) -> CellError {
        let column = self.names.iter().position(|other| *other == name).map(|column| column + 1);
        let wrong = format!("expected {expected}, found {}", found(self.cell(name)));
        CellError { row: self.number, column, name: String::from(name), wrong }
    }

    /// A number in a range, of the type that the range has.
    pub fn number<T>(&self, name: &str, range: RangeInclusive<T>) -> Result<T, CellError>
    where
        T: TryFrom<u64> + PartialOrd + Display,
    {
        let number = digits(self.cell(name)).and_then(|number| T::try_from(number).ok());
        number.filter(|number| range.contains(number)).ok_or_else(|| {
            self.wrong(name, &format!("a whole number from {} to {}", range.start(), range.end()))
        })
    }

    /// One of two words.
    pub fn choose<T: Copy>(&self, name: &str, words: Names<T>) -> Result<T, CellError> {
        self.word(name, words)
            .ok_or_else(|| self.wrong(name, &format!("`{}` or `{}`", words[0].0, words[1].0)))
    }

    /// One of two words, or an empty cell.
    pub fn choose_or<T: Copy>(&self, name: &str, words: Names<T>, empty: T) -> Result<T, CellError> {
        let expected = format!("`{}`, `{}` or an empty cell", words[0].0, words[1].0);
        match self.cell(name) {
            "" => Ok(empty),
            _ => self.word(name, words).ok_or_else(|| self.wrong(name, &expected)),
        }
    }

    fn word<T: Copy>(&self, name: &str, words: Names<T>) -> Option<T> {
        let is_word = |(word, _): &&(&str, T)| self.cell(name).eq_ignore_ascii_case(word);
        words.iter().find(is_word).map(|(_, value)| *value)
    }

    /// Nothing stands in a column that has no name.
    fn without_strays(&self) -> Result<(), CellError> {
        let has_name = |column: usize| self.names.get(column).map_or(false, |name| !name.is_empty());
        let stray =
            self.cells.iter().enumerate().find(|(column, cell)| !cell.is_empty() && !has_name(*column));
        match stray {
            None => Ok(()),
            Some((column, cell)) => {
                let wrong = format!("found {}, and this column has no name in row 1", found(cell));
                Err(CellError { row: self.number, column: Some(column + 1), name: String::new(), wrong })
            }
        }
    }
}
