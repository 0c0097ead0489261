//! Writes the samples: small sheet files named after what they show, each with the text it
//! is made from where text can make it; a day's fills, as texts; lists of option symbols; and a damaged file
//! with what is salvaged of it.

#![forbid(unsafe_code)]

mod accepted;
mod changes;
mod fills;
mod lists;
mod refused;
mod salvage;
mod sample;

use std::env;
use std::ffi::OsString;
use std::fs::{self, OpenOptions};
use std::io::{ErrorKind, Write};
use std::path::Path;
use std::process::ExitCode;

use sample::{Making, Sample};
use usm::text;

const USAGE: &str = "\
usage: usm_samples FOLDER [--force]
  --force overwrites samples that are there
";

fn main() -> ExitCode {
    let arguments: Vec<OsString> = env::args_os().skip(1).collect();
    let forced = |word: &OsString| word == "--force";
    let written = match arguments.as_slice() {
        [folder] if !forced(folder) => write_all(folder.as_ref(), false),
        [folder, force] if !forced(folder) && forced(force) => write_all(folder.as_ref(), true),
        _ => Err(format!("the command was not understood\n{USAGE}")),
    };
    match written {
        Ok(()) => ExitCode::SUCCESS,
        Err(message) => {
            message.lines().for_each(|line| eprintln!("usm_samples: {line}"));
            ExitCode::from(2)
        }
    }
}

/// The sheets, most of them from document 01's bench and its "Errors that look right".
fn samples() -> Vec<Sample> {
    let lists = [
        accepted::spreads(),
        accepted::sheets(),
        refused::no_spreads(),
        refused::sheets(),
        refused::changed_files(),
    ];
    lists.into_iter().flatten().collect()
}

fn write_all(folder: &Path, force: bool) -> Result<(), String> {
    for sample in samples() {
        let mut file = sample.sheet.to_file().map_err(|refusal| format!("{}: {refusal}", sample.name))?;
        match sample.making {
            Making::FromText { about } => {
                let text = format!("# {about}\n\n{}", text::show(&sample.sheet));
                write(&folder.join(sample.name).with_extension("txt"), text.as_bytes(), force)?;
            }
            Making::Changed(change) => file = change(file),
        }
        write(&folder.join(sample.name).with_extension("usm"), &file, force)?;
    }
    write_into(&folder.join("fills"), &fills::texts()?, force)?;
    write_into(&folder.join("lists"), &lists::texts()?, force)?;
    write_into(&folder.join("salvage"), &salvage::files()?, force)
}

/// Samples that belong together, in a folder of their own.
fn write_into<Bytes: AsRef<[u8]>>(folder: &Path, files: &[(&str, Bytes)], force: bool) -> Result<(), String> {
    fs::create_dir_all(folder).map_err(|error| format!("{}: {error}", folder.display()))?;
    files.iter().try_for_each(|(name, bytes)| write(&folder.join(name), bytes.as_ref(), force))
}

/// A sample that is there stays, unless forced.
fn write(path: &Path, bytes: &[u8], force: bool) -> Result<(), String> {
    let mut options = OpenOptions::new();
    let options = options.write(true).create(force).truncate(force).create_new(!force);
    let written = options.open(path).and_then(|mut file| file.write_all(bytes));
    written.map_err(|error| match error.kind() {
        ErrorKind::AlreadyExists => format!("{}: is there already; --force overwrites it", path.display()),
        _ => format!("{}: cannot be written: {error}", path.display()),
    })
}
