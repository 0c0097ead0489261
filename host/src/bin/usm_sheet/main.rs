//! Makes sheet files from readable text, prints them back, checks them, and tells their margins.
//! The script `sheet` at the root of the repository builds and starts it.

#![deny(unsafe_code)]

mod arguments;
mod binaries;
mod check;
mod claims;
mod files;
mod found;
mod groups;
mod help;
mod input;
mod inputs;
mod join;
mod json;
mod make;
mod moves;
mod output;
mod page;
mod paid;
mod play;
mod plot;
mod program;
mod salvage;
mod symbols;
mod tables;
mod usage;
mod warnings;
mod words;

use std::ffi::{OsStr, OsString};
use std::process::ExitCode;

use arguments::Arguments;
use output::print;

fn main() -> ExitCode {
    program::run("sheet", run)
}

fn run(words: Vec<OsString>) -> Result<ExitCode, String> {
    let arguments = Arguments::of(words);
    let command = arguments.command.as_str();
    if let Some(wrong) = &arguments.wrong {
        return Err(help::wrong_options(command, wrong));
    }
    if arguments.help {
        return help::help(command);
    }
    if arguments.version {
        return print(&format!("sheet {}\n", usm::VERSION));
    }
    if !usage::is_command(command) {
        return Err(help::no_command(command));
    }
    if let Some(option) = arguments.options.iter().find(|option| !usage::takes(command, option)) {
        return Err(help::wrong_options(command, &format!("`{command}` takes no `{option}`")));
    }
    done(&arguments)
}

/// Does what a command asks for, which takes the options that were given.
fn done(arguments: &Arguments) -> Result<ExitCode, String> {
    let [json, work, quiet, table, only_holdings] =
        ["--json", "--work", "--quiet", "--table", "--holdings"].map(|option| arguments.has(option));
    let (files, lists) = (arguments.files.as_slice(), arguments.lists.as_slice());
    match (arguments.command.as_str(), files) {
        ("show", [file]) => make::show(file, only_holdings),
        ("check", files) if !files.is_empty() || !lists.is_empty() => {
            check::check(files, lists, &check::Telling { json, work, quiet })
        }
        ("margins", [file]) => groups::margins(file, json),
        ("cash", [file]) => groups::cash(file, json),
        ("worksheet", [file, group]) => groups::worksheet(file, group, json),
        ("binary", []) if table => binaries::tables(),
        ("binary", words) if !table => binaries::binary(words),
        ("pair", words) => binaries::pair(words),
        ("help", []) => help::help(""),
        ("help", [command]) => help::help(&command.to_string_lossy()),
        (command, [inputs @ .., out]) => written(command, inputs, out, arguments.has("--force"), json),
        (command, []) => Err(usage::line(command)),
    }
}

/// Does what a command asks for that writes a file.
fn written(
    command: &str,
    inputs: &[OsString],
    out: &OsStr,
    force: bool,
    json: bool,
) -> Result<ExitCode, String> {
    match (command, inputs) {
        ("make", [text]) => make::make(text, out, force),
        ("make", [holdings, placement]) if inputs.iter().all(|name| input::is_csv(name)) => {
            make::make_of_tables(holdings, placement, out, force)
        }
        ("claim", [file]) => claims::claim(file, out, force),
        ("page", [_, ..]) => page::page(inputs, out, force),
        ("join", [file, g, k]) => join::join(file, [g, k], out, force),
        ("to-new", [file, account]) => moves::to_new(file, account, out, force),
        ("to-old", [file]) => moves::to_old(file, out, force),
        ("to-csv", [table, file]) => tables::to_csv(table, file, out, force),
        ("from-csv", [table, file]) => tables::from_csv(table, file, out, force),
        ("mark-paid", [file]) => paid::mark_paid(file, out, force),
        ("play", [holdings, fills]) => play::play(&play::Names { holdings, fills, out }, force, json),
        ("import", [roots, list]) => symbols::import(&symbols::Names { roots, list, out }, force, json),
        ("export", [roots, file]) => symbols::export(roots, file, out, force),
        ("salvage", [file]) => salvage::salvage(file, out, force, json),
        (command, _) => Err(usage::line(command)),
    }
}
