//! `sheet page`: golden pages, every number on a page against the library, drawings read back, and a real
//! browser that looks at them.

#![forbid(unsafe_code)]

mod browser;
mod chromium;
#[path = "../common/mod.rs"]
mod common;
mod drawing;
mod escaping;
mod files;
mod golden;
mod numbers;
mod reader;
mod refused;
#[allow(dead_code)] // for the tests of scripts
#[path = "../common/scripts.rs"]
mod scripts;
mod style;

use std::ffi::{OsStr, OsString};
use std::fs;
use std::path::{Path, PathBuf};
use std::process::Output;

fn samples() -> PathBuf {
    Path::new(env!("CARGO_MANIFEST_DIR")).join("../samples")
}

fn sample(name: &str) -> Vec<u8> {
    fs::read(samples().join(name)).unwrap_or_else(|error| panic!("{name}: {error}"))
}

/// The sheet files among the samples, by name.
fn sample_names() -> Vec<String> {
    let entries = fs::read_dir(samples()).expect("samples").map(|entry| entry.expect("an entry").file_name());
    let mut names: Vec<String> = entries.map(|name| name.to_string_lossy().into_owned()).collect();
    names.retain(|name| name.ends_with(".usm"));
    names.sort();
    names
}

/// Runs `sheet page` in a folder.
fn run(folder: &Path, words: &[impl AsRef<OsStr>]) -> Output {
    let mut command = common::program(env!("CARGO_BIN_EXE_usm_sheet"));
    command.arg("page").args(words).current_dir(folder).output().expect("the tool runs")
}

/// The page of some files, which are put into a folder of the test's own; status 2 is none.
fn page_of(test: &str, files: &[(&str, &[u8])]) -> String {
    let folder = common::folder(test);
    for (name, file) in files {
        fs::write(folder.join(name), file).expect("a file");
    }
    let words: Vec<OsString> =
        files.iter().map(|(name, _)| name.into()).chain(["page.html".into()]).collect();
    let output = run(&folder, &words);
    assert_ne!(output.status.code(), Some(2), "{}", String::from_utf8_lossy(&output.stderr));
    fs::read_to_string(folder.join("page.html")).expect("the page")
}
