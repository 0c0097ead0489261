//! Programs that tests start, and folders for what they make.

#[allow(dead_code)] // for the tests of the proved programs
pub mod proved;

use std::ffi::OsStr;
use std::fs;
use std::path::{Path, PathBuf};
use std::process::Command;

/// A fresh folder of one test's own.
#[allow(dead_code)] // some tests start programs only
pub fn folder(name: &str) -> PathBuf {
    let folder = Path::new(env!("CARGO_TARGET_TMPDIR")).join(name);
    let _ = fs::remove_dir_all(&folder); // there is none at first
    fs::create_dir_all(&folder).expect("a folder for the test");
    folder
}

/// A command that starts a built program: through the emulator that `USM_RUNNER` names, where the programs
/// are for another kind of machine, and directly otherwise.
pub fn program(path: impl AsRef<OsStr>) -> Command {
    match std::env::var_os("USM_RUNNER") {
        Some(runner) if !runner.is_empty() => {
            let mut command = Command::new(runner);
            command.arg(path);
            command
        }
        _ => Command::new(path),
    }
}
