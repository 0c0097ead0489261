//! What tests of the scripts at the root share: a path of the test's own, scripts that stand in for
//! programs, and what a run said.

use std::fs::{self, Permissions};
use std::os::unix::fs::{symlink, PermissionsExt};
use std::path::{Path, PathBuf};
use std::process::{Command, Output};

/// A program on the path of the tests.
pub fn on_path(name: &str) -> Option<PathBuf> {
    let path = std::env::var_os("PATH")?;
    std::env::split_paths(&path).map(|folder| folder.join(name)).find(|file| file.is_file())
}

/// A folder that has these programs and no other: a path to run a script with.
pub fn put_tools(folder: &Path, names: &[&str]) {
    fs::create_dir_all(folder).expect("a folder");
    for name in names {
        let tool = on_path(name).unwrap_or_else(|| panic!("{name} is not on the path"));
        symlink(tool, folder.join(name)).expect("a link");
    }
}

/// A script of bash that stands in for a program.
pub fn put_script(path: &Path, text: &str) {
    let _ = fs::remove_file(path); // a link is not written through
    fs::write(path, format!("#!/usr/bin/env bash\n{text}\n")).expect("a script");
    set_mode(path, 0o755);
}

/// Whether this runs as root.
#[allow(dead_code)] // most tests do not ask
pub fn is_root() -> bool {
    let id = Command::new("id").arg("-u").output().expect("id runs");
    id.stdout == b"0\n"
}

pub fn set_mode(path: &Path, mode: u32) {
    fs::set_permissions(path, Permissions::from_mode(mode)).expect("permissions");
}

/// A command that starts a program as one whom permissions hold, as they do not hold root.
#[allow(dead_code)] // some tests have no files of others
pub fn as_anyone(program: &Path) -> Command {
    let id = Command::new("id").arg("-u").output().expect("id runs");
    if id.stdout != b"0\n" {
        return Command::new(program);
    }
    let mut command = Command::new(on_path("setpriv").expect("setpriv, of util-linux"));
    command.args(["--reuid=65534", "--regid=65534", "--clear-groups"]).arg(program);
    command
}

/// A folder of one test's own, where everyone may look: it goes when the test ends.
pub struct Folder(pub PathBuf);

impl Folder {
    pub fn new(name: &str) -> Folder {
        let folder = std::env::temp_dir().join(format!("usm-{}-{name}", std::process::id()));
        let _ = fs::remove_dir_all(&folder); // there is none at first
        fs::create_dir_all(&folder).expect("a folder");
        set_mode(&folder, 0o755);
        Folder(folder)
    }
}

impl Drop for Folder {
    fn drop(&mut self) {
        let _ = fs::remove_dir_all(&self.0);
    }
}

/// What a run said.
#[derive(Debug, PartialEq)]
pub struct Told {
    pub status: i32,
    pub out: String,
    pub err: String,
}

pub fn told(output: Output) -> Told {
    let text = |bytes: Vec<u8>| String::from_utf8(bytes).expect("UTF-8");
    let status = output.status.code().expect("an exit status");
    Told { status, out: text(output.stdout), err: text(output.stderr) }
}
