//! The blocks of a file that is refused for one of them, as they say themselves.

use usm::numbers::grouped;
use usm::{Form, Table};
use usm_values::block::{account_of, Header, BLOCK_BYTES};

use super::html::{text, Html};
use super::marks::Marks;
use super::table::{number, table, Row};

const HEADS: [&str; 5] = ["Block", "Mark", "Table", "Records", "Account"];

pub fn blocks(file: &[u8], marks: &Marks) -> Html {
    let rows = file.chunks_exact(BLOCK_BYTES).enumerate();
    let rows = rows.map(|(index, block)| Row::of(cells(index, block)).marked(marks.at_block(index)));
    table("Blocks of the file, as each says of itself", &HEADS, rows.collect())
}

fn cells(index: usize, block: &[u8]) -> Vec<Html> {
    let says = Header::of(block);
    let form = Form::of_block(block);
    let mark = form.map_or(String::from("none"), |form| String::from_utf8_lossy(&form.mark()).into_owned());
    let kind = Table::ALL.into_iter().find(|table| table.number() == u64::from(says.kind));
    let account = match form {
        Some(Form::New) => account_of(block).to_string(),
        _ => String::from("none"),
    };
    vec![
        number(grouped(index + 1)),
        text(mark),
        text(kind.map_or(format!("none (kind {})", says.kind), |table| String::from(table_name(table)))),
        number(grouped(says.records)),
        number(account),
    ]
}

pub fn table_name(table: Table) -> &'static str {
    match table {
        Table::Holdings => "Holdings",
        Table::Placement => "Placement",
        Table::Claims => "Claims",
    }
}
