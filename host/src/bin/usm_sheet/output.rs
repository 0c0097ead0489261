//! Standard output, gathered, and standard error in step with it. What could not be written is an error.

use std::io::{self, BufWriter, Write};
use std::process::ExitCode;

use crate::program::{self, Stream};

pub struct Output {
    out: BufWriter<Stream>,
}

/// Prints a text that is all there is to say.
pub fn print(text: &str) -> Result<ExitCode, String> {
    let mut output = Output::new();
    output.print(text.as_bytes())?;
    output.end()?;
    Ok(ExitCode::SUCCESS)
}

fn failed(error: io::Error) -> String {
    format!("standard output: {error}")
}

impl Output {
    pub fn new() -> Output {
        Output { out: BufWriter::new(Stream::output()) }
    }

    pub fn print(&mut self, bytes: &[u8]) -> Result<(), String> {
        self.out.write_all(bytes).map_err(failed)
    }

    /// Says a line to people, behind all that was printed so far.
    pub fn tell(&mut self, line: &str) -> Result<(), String> {
        self.out.flush().map_err(failed)?;
        program::tell(line);
        Ok(())
    }

    pub fn end(mut self) -> Result<(), String> {
        self.out.flush().map_err(failed)
    }
}
