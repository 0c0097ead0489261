//! What is the same for any program: arguments, messages, streams, and files that are not overwritten unasked.

mod names;
mod owner;
mod streams;
mod write;

use std::ffi::OsString;
use std::io::{self, Write};
use std::process::ExitCode;

pub use names::{not_empty, shown};
pub use streams::Stream;
pub use write::write;

/// Runs a program on its arguments. Work that could not be done ends with its message on
/// standard error, each line behind the program's name, and status 2.
pub fn run(name: &str, work: impl FnOnce(Vec<OsString>) -> Result<ExitCode, String>) -> ExitCode {
    work(std::env::args_os().skip(1).collect()).unwrap_or_else(|message| {
        for line in message.lines() {
            tell(&format!("{name}: {line}"));
        }
        ExitCode::from(2)
    })
}

/// Says a line to people. Where standard error takes nothing there is nobody left to tell.
pub fn tell(line: &str) {
    let _ = writeln!(io::stderr(), "{line}");
}
