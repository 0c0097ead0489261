//! The cells of a CSV: commas or semicolons between them, quotes around them, and either kind of line end.

use std::iter::Peekable;
use std::str::Chars;

use super::errors::CellError;

/// The rows of a CSV, and what parts their cells.
pub struct Rows {
    pub separator: char,
    /// Each with its number, from 1. Rows without anything in them are left out.
    pub rows: Vec<(usize, Vec<String>)>,
}

/// Takes a CSV apart. A byte order mark before it is skipped.
pub fn rows(text: &str) -> Result<Rows, CellError> {
    let text = text.strip_prefix('\u{FEFF}').unwrap_or(text);
    let separator = separator(text);
    let mut reading = Reading { rest: text.chars().peekable(), separator };
    let mut rows = Vec::new();
    let mut number = 0;
    while reading.rest.peek().is_some() {
        number += 1;
        let cells = reading.row(number)?;
        if cells.iter().any(|cell| !cell.is_empty()) {
            rows.push((number, cells));
        }
    }
    Ok(Rows { separator, rows })
}

/// What stands between the names of the columns, none of which has a comma or a semicolon.
fn separator(text: &str) -> char {
    let head = text.trim_start_matches(['\r', '\n']).lines().next().unwrap_or_default();
    head.chars().find(|c| matches!(c, ',' | ';')).unwrap_or(',')
}

struct Reading<'a> {
    rest: Peekable<Chars<'a>>,
    separator: char,
}

impl Reading<'_> {
    fn row(&mut self, row: usize) -> Result<Vec<String>, CellError> {
        let mut cells = Vec::new();
        loop {
            let column = Some(cells.len() + 1);
            let cell = self.cell().map_err(|wrong| CellError {
                row,
                column,
                name: String::new(),
                wrong: String::from(wrong),
            })?;
            cells.push(String::from(cell.trim()));
            match self.rest.next() {
                Some(c) if c == self.separator => {}
                Some('\r') => {
                    self.rest.next_if_eq(&'\n');
                    return Ok(cells);
                }
                _ => return Ok(cells),
            }
        }
    }

    /// A cell, up to what ends it. Blanks around it do not count.
    fn cell(&mut self) -> Result<String, &'static str> {
        while self.rest.next_if_eq(&' ').is_some() {}
        if self.rest.next_if_eq(&'"').is_none() {
            return Ok(self.plain());
        }
        let cell = self.quoted().ok_or("the quote that opens this cell is not closed")?;
        match self.plain().trim() {
            "" => Ok(cell),
            _ => Err(
                "something stands behind the quote that closes this cell; a quote inside of it is doubled",
            ),
        }
    }

    fn plain(&mut self) -> String {
        let separator = self.separator;
        let mut cell = String::new();
        while let Some(c) = self.rest.next_if(|c| *c != separator && !matches!(c, '\r' | '\n')) {
            cell.push(c);
        }
        cell
    }

    /// What stands between quotes, behind the first of which this begins; a doubled one is a quote.
    fn quoted(&mut self) -> Option<String> {
        let mut cell = String::new();
        loop {
            match self.rest.next()? {
                '"' if self.rest.next_if_eq(&'"').is_none() => return Some(cell),
                c => cell.push(c),
            }
        }
    }
}

#[cfg(test)]
mod tests {
    use super::*;

    fn cells(text: &str) -> Vec<(usize, Vec<String>)> {
        rows(text).expect("a CSV").rows
    }

    fn row(number: usize, cells: &[&str]) -> (usize, Vec<String>) {
        (number, cells.iter().map(|cell| String::from(*cell)).collect())
    }

    #[test]
    fn cells_are_parted_as_spreadsheets_part_them() {
        let expected = [row(1, &["a", "b"]), row(2, &["1", "2"])];
        for text in
            ["a,b\n1,2", "a,b\r\n1,2\r\n", "a;b\n1;2\n", "\u{FEFF}a,b\r1,2\r", "\"a\",\"b\"\n 1 , \"2\"\n"]
        {
            assert_eq!(cells(text), expected, "{text:?}");
        }
        assert_eq!(cells("a;b\n1,5;2"), [row(1, &["a", "b"]), row(2, &["1,5", "2"])]);
        assert_eq!(cells("\"a\";b\n"), [row(1, &["a", "b"])]);
        assert_eq!(cells("a,b\n\"1,5\",\"x\"\"y\"\n"), [row(1, &["a", "b"]), row(2, &["1,5", "x\"y"])]);
        assert_eq!(
            cells("a,b\n\"1\n2\",3\n4,5"),
            [row(1, &["a", "b"]), row(2, &["1\n2", "3"]), row(3, &["4", "5"])]
        );
        assert_eq!(cells("a\n\n,,\r\nb"), [row(1, &["a"]), row(4, &["b"])]);
        assert_eq!(cells(""), []);
        assert_eq!(cells("\u{FEFF}\u{FEFF}a"), [row(1, &["\u{FEFF}a"])], "only the first mark is one");
    }

    #[test]
    fn quotes_that_do_not_fit_are_told() {
        let error = |text: &str| rows(text).err().expect("an error").to_string();
        assert_eq!(error("a,b\n1,\"2\n3"), "row 2, column 2: the quote that opens this cell is not closed");
        assert_eq!(
            error("a,b\n\"1\"2,3"),
            "row 2, column 1: something stands behind the quote that closes this cell; a quote inside of it is doubled"
        );
    }
}
