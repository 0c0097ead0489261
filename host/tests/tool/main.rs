//! `usm_sheet` as a newcomer meets it: its commands, and the ways it says no.

#![forbid(unsafe_code)]

#[path = "../common/mod.rs"]
mod common;
#[path = "../common/scripts.rs"]
#[allow(dead_code)] // for the tests of scripts
mod scripts;

mod binaries;
mod check;
mod claims;
mod csv;
mod files;
mod full;
mod groups;
mod join;
mod json;
mod kept;
mod make;
mod moves;
mod page;
mod paid;
mod play;
mod salvage;
mod symbols;
mod usage;

use std::ffi::OsStr;
use std::io::Write;
use std::path::Path;
use std::process::{Command, Output, Stdio};

use common::folder;

const VERTICAL: &str = "\
# P1 of document 01's bench
holdings
  long 1 call 60 2011-05-21 unit 100 underlying 7 american listed
  short 1 call 50 2011-05-21 unit 100 underlying 7 american listed
placement
  group 1 long 1 call 60 2011-05-21 unit 100 underlying 7 american listed
  group 1 short 1 call 50 2011-05-21 unit 100 underlying 7 american listed
claims
  claim 1 1000000
";

fn run(folder: &Path, arguments: &[&str], input: &[u8]) -> Output {
    run_named(folder, &arguments.iter().map(OsStr::new).collect::<Vec<&OsStr>>(), input)
}

/// Runs the tool on words that need not be UTF-8.
fn run_named(folder: &Path, arguments: &[&OsStr], input: &[u8]) -> Output {
    let mut command = common::program(env!("CARGO_BIN_EXE_usm_sheet"));
    command.args(arguments).current_dir(folder);
    answer(command, input)
}

fn answer(mut command: Command, input: &[u8]) -> Output {
    let piped = command.stdin(Stdio::piped()).stdout(Stdio::piped()).stderr(Stdio::piped());
    let mut child = piped.spawn().expect("the program runs");
    // A program that fails early does not read its input; that is not this test's failure.
    let _ = child.stdin.take().expect("piped").write_all(input);
    child.wait_with_output().expect("the program ends")
}

/// Status, standard output and standard error.
fn told(output: Output) -> (i32, String, String) {
    let text = |bytes: Vec<u8>| String::from_utf8(bytes).expect("UTF-8");
    (output.status.code().expect("an exit status"), text(output.stdout), text(output.stderr))
}

/// The names of what stands in a folder, in order.
fn names_in(folder: &Path) -> Vec<String> {
    let entries = std::fs::read_dir(folder).expect("a folder");
    let mut names: Vec<String> =
        entries.map(|entry| entry.expect("an entry").file_name().to_string_lossy().into_owned()).collect();
    names.sort();
    names
}

/// What a page or the help sets apart by an indent, to be copied.
fn example(text: &str, indent: &str) -> String {
    text.lines().filter_map(|line| line.strip_prefix(indent)).map(|line| format!("{line}\n")).collect()
}

#[test]
fn the_sheet_in_the_help_is_one_that_make_reads() {
    let folder = folder("tool-help-sheet");
    let made = run(&folder, &["make", "-", "-"], example(usm::text::FORMAT, "  ").as_bytes());
    assert_eq!(usm::file_line(&made.stdout), "ACCEPT 1 0\n");
}
