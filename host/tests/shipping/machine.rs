//! The scripts `install` and `package`, over what this build has made; and a machine without rt, cargo and compilers.

use std::os::unix::fs::{symlink, PermissionsExt};
use std::path::{Path, PathBuf};
use std::process::{Command, Stdio};

use crate::common::proved::built;
use crate::compiled::{library, package};
use crate::scripts::{as_anyone, on_path, put_tools, told, Told};

/// All that is installed but the links and, where there is no shared library, what goes with it.
pub const INSTALLED: [(&str, u32); 14] = [
    ("bin/sheet", 0o755),
    ("bin/usm_check", 0o755),
    ("bin/usm_table", 0o755),
    ("libexec/usm/usm_sheet", 0o755),
    ("include/usm.h", 0o644),
    ("lib/libusm_c.a", 0o644),
    ("lib/libusm.so.0", 0o644),
    ("lib/pkgconfig/usm.pc", 0o644),
    ("lib/python3/dist-packages/usm/__init__.py", 0o644),
    ("lib/python3/dist-packages/usm/py.typed", 0o644),
    ("share/doc/usm/RULES.md", 0o644),
    ("share/doc/usm/JSON.md", 0o644),
    ("share/doc/usm/CHANGELOG.md", 0o644),
    ("share/doc/usm/example.c", 0o644),
];
pub const PAGES: [&str; 4] = ["man1/sheet.1", "man1/usm_check.1", "man1/usm_table.1", "man3/usm.3"];

/// One of the two scripts, told of the library and the programs of this build. What it makes others cannot read
/// unless it says so.
pub fn script(name: &str) -> Command {
    let mut command = Command::new("bash");
    command.args(["-c", "umask 077; exec \"$0\" \"$@\""]).arg(package().join(name));
    command
        .env("USM_C_LIB_DIR", library().parent().expect("a folder"))
        .env("USM_CHECK", built("usm_check"))
        .env("USM_TABLE", built("usm_table"))
        .env("USM_SHEET", env!("CARGO_BIN_EXE_usm_sheet"))
        .env_remove("DESTDIR");
    command
}

pub fn run(command: &mut Command) -> Told {
    told(command.output().expect("it runs"))
}

/// Holds all that is installed below a folder to be there, with its mode.
pub fn assert_installed(below: &Path) {
    let mode = |path: &Path| path.metadata().expect("it is there").permissions().mode() & 0o7777;
    for (name, expected) in INSTALLED {
        assert_eq!(mode(&below.join(name)), expected, "{name}");
        let folder = below.join(name);
        assert_eq!(mode(folder.parent().expect("a folder")), 0o755, "the folder of {name}");
    }
    for page in PAGES {
        assert_eq!(mode(&below.join("share/man").join(page)), 0o644, "{page}");
    }
    assert_eq!(below.join("lib/libusm.so").read_link().expect("a link"), Path::new("libusm.so.0"));
}

/// A program as another user runs it, where there is nothing but a shell and the few tools that it takes.
pub fn elsewhere(tools: &Path, program: &Path) -> Command {
    if !tools.exists() {
        put_tools(tools, &["bash", "cat", "dirname", "env", "readlink", "uname"]);
        if let Some(emulator) = on_path("qemu-x86_64") {
            symlink(emulator, tools.join("qemu-x86_64")).expect("a link");
        }
    }
    let mut command = as_anyone(program);
    command.env_clear().env("PATH", tools).stdin(Stdio::null());
    command
}

pub fn sample(name: &str) -> PathBuf {
    package().join("../samples").join(name)
}
