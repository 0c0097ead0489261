//! The help, of all commands or of one, and what is said of a command that was not understood.

use std::process::ExitCode;

use usm::{csv, text};

use crate::arguments::quoted;
use crate::output::print;
use crate::usage;

/// About one command and the formats it reads, or about all of them.
pub fn help(command: &str) -> Result<ExitCode, String> {
    let (commands, notes, formats) = match command {
        "" => (String::from(usage::COMMANDS), usage::NOTES, formats_of("help")),
        _ if usage::is_command(command) => {
            (format!("usage:\n{}", usage::block(command)), "", formats_of(command))
        }
        _ => return Err(no_command(command)),
    };
    let parts =
        [commands.as_str(), notes].into_iter().chain(formats.iter().copied()).filter(|part| !part.is_empty());
    print(&parts.collect::<Vec<&str>>().join("\n"))
}

/// The formats of what a command reads.
fn formats_of(command: &str) -> &'static [&'static str] {
    match command {
        "help" => &[text::FORMAT, text::FILLS_FORMAT, csv::FORMAT, text::ROOTS_FORMAT, text::LIST_FORMAT],
        "make" | "to-csv" | "from-csv" => &[text::FORMAT, csv::FORMAT],
        "show" | "claim" => &[text::FORMAT],
        "play" => &[text::FORMAT, text::FILLS_FORMAT, csv::FORMAT],
        "import" | "export" => &[text::ROOTS_FORMAT, text::LIST_FORMAT],
        _ => &[],
    }
}

/// What is said of a word that is no command: the nearest one, and how that is said.
pub fn no_command(word: &str) -> String {
    let what = match word {
        "" => String::from("a command is missing"),
        word => format!("there is no command {}", quoted(word)),
    };
    match usage::nearest(word) {
        Some(command) => format!("{what}; the nearest is `{command}`, {}", usage::line(command)),
        None => format!("{what}; `sheet help` shows the commands"),
    }
}

/// What is wrong with the options, and how the command is said.
pub fn wrong_options(command: &str, wrong: &str) -> String {
    match usage::is_command(command) {
        true => format!("{wrong}; {}", usage::line(command)),
        false => format!("{wrong}; `sheet help` shows the commands"),
    }
}
