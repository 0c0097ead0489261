//! Tables: a caption, a header for each column, and rows of which some are marked.

use super::html::{all, element, text, words, Html};

/// A row of a table. Its first cell is its header.
pub struct Row {
    pub cells: Vec<Html>,
    pub mark: Option<Mark>,
}

/// What is said below a row that a refusal is about, and the name that the refusal leads there by.
#[derive(Clone)]
pub struct Mark {
    /// How it is shown.
    pub class: &'static str,
    pub says: &'static str,
    pub id: Option<String>,
}

impl Row {
    pub fn of(cells: Vec<Html>) -> Row {
        Row { cells, mark: None }
    }

    pub fn marked(self, mark: Option<Mark>) -> Row {
        Row { mark, ..self }
    }
}

/// A cell that is an amount, a date or a count: on one line.
pub fn number(words: impl AsRef<str>) -> Html {
    element("span", &[("class", "number")], [text(words)])
}

/// A cell that may have long words, which may be parted anywhere where there is little room.
pub fn long(words: impl AsRef<str>) -> Html {
    element("span", &[("class", "long")], [text(words)])
}

pub fn table(caption: &str, heads: &[&str], rows: Vec<Row>) -> Html {
    table_with(caption, heads, rows, None)
}

/// A table that may have a last row with sums.
pub fn table_with(caption: &str, heads: &[&str], rows: Vec<Row>, sums: Option<Row>) -> Html {
    let head = heads.iter().map(|head| words("th", &[("scope", "col")], head));
    let body = rows.into_iter().map(|row| shown(row, heads.len()));
    let foot = sums.map(|row| element("tfoot", &[], [shown(row, heads.len())]));
    element(
        "table",
        &[],
        [
            words("caption", &[], caption),
            element("thead", &[], [element("tr", &[], head)]),
            element("tbody", &[], body),
            all(foot),
        ],
    )
}

fn shown(row: Row, columns: usize) -> Html {
    let cells = row.cells.into_iter().enumerate().map(|(index, cell)| match index {
        0 => element("th", &[("scope", "row")], [cell]),
        _ => element("td", &[], [cell]),
    });
    match row.mark {
        None => element("tr", &[], cells),
        Some(mark) => all([element("tr", &attributes(&mark), cells), said(&mark, columns)]),
    }
}

fn attributes(mark: &Mark) -> Vec<(&str, &str)> {
    let id = mark.id.iter().map(|id| ("id", id.as_str()));
    [("class", mark.class)].into_iter().chain(id).collect()
}

/// Not by colour alone: a row of its own says what the mark means.
fn said(mark: &Mark, columns: usize) -> Html {
    let columns = columns.to_string();
    let cell = words("td", &[("colspan", &columns)], format!("\u{25b2} {}", mark.says));
    element("tr", &[("class", &format!("{} said", mark.class))], [cell])
}
