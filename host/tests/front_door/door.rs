//! A clone with nothing in it but what `sheet` looks at, a toolchain and a cargo that only pretend, and a path on
//! which there is nothing but what the script may use.

use std::fs;
use std::os::unix::fs::symlink;
use std::path::{Path, PathBuf};
use std::process::{Command, Stdio};

use crate::scripts::{as_anyone, on_path, put_script, put_tools, set_mode, told, Folder, Told};

/// All that the script may start, and what the stand-ins need.
const TOOLS: [&str; 16] = [
    "bash", "cat", "cp", "dirname", "env", "find", "flock", "mkdir", "readlink", "rm", "sed", "sleep", "tee",
    "touch", "uname", "wc",
];

/// What the tool is made of.
pub const SOURCES: [&str; 8] = [
    "host/include/usm.h",
    "host/src/lib.rs",
    "host/src/bin/usm_sheet/main.rs",
    "host/values/src/lib.rs",
    "host/values/Cargo.toml",
    "host/build.rs",
    "host/Cargo.toml",
    "host/Cargo.lock",
];

/// Sources of the host side that no tool is made of.
pub const OTHERS: [&str; 3] = ["host/model/src/lib.rs", "host/kit/src/lib.rs", "host/tests/tool/main.rs"];

/// The tool of most tests says its words, each by itself, and what it reads.
const SAYS_ITS_WORDS: &str = "printf '<%s>' \"$@\"\ncat";

pub fn said(status: i32, out: &str, err: &str) -> Told {
    Told { status, out: out.into(), err: err.into() }
}

/// The clone, the files that the tool works on, and the path.
pub struct Door {
    folder: Folder,
}

impl Drop for Door {
    fn drop(&mut self) {
        // A test may have left folders that cannot be written.
        for folder in ["", "target", "target/sheet", "crates/usm_c", "host", "host/target"] {
            if self.clone(folder).is_dir() {
                set_mode(&self.clone(folder), 0o755);
            }
        }
    }
}

impl Door {
    /// A clone in which nothing is made yet. A script stands in for the tool, which takes no emulator.
    pub fn fresh(name: &str) -> Door {
        let door = Door::of_this_machine(name);
        put_script(&door.tool("uname"), "echo x86_64");
        put_script(&door.beside("program"), SAYS_ITS_WORDS);
        door
    }

    /// The same where everything is made.
    pub fn made(name: &str) -> Door {
        let door = Door::fresh(name);
        assert_eq!(door.run(&[]).status, 0);
        door.age();
        door
    }

    /// A clone with the tool itself.
    pub fn with_tool(name: &str) -> Door {
        let door = Door::of_this_machine(name);
        fs::copy(env!("CARGO_BIN_EXE_usm_sheet"), door.beside("program")).expect("the tool");
        assert_eq!(door.run(&["--version"]).out, format!("sheet {}\n", usm::VERSION));
        door
    }

    fn of_this_machine(name: &str) -> Door {
        let door = Door { folder: Folder::new(&format!("door-{name}")) };
        let root = Path::new(env!("CARGO_MANIFEST_DIR")).join("..");
        for name in ["records", "blocks", "spreads", "sheets", "fills", "symbols", "salvage", "binaries"] {
            door.put(&format!("crates/{name}/src/lib.rt"), "// a library\n");
        }
        for name in ["verdicts", "usm_c", "usm_check", "bench"] {
            door.put(&format!("crates/{name}/src/lib.rt"), "// a crate\n");
        }
        door.put("crates/records/must-fail/wrong.edit", "an edit\n");
        for source in SOURCES.into_iter().chain(OTHERS) {
            door.put(source, "// a source\n");
        }
        for file in ["sheet", "crates.txt"] {
            fs::copy(root.join(file), door.clone(file)).expect("a file of the repository");
        }
        put_tools(&door.beside("tools"), &TOOLS);
        if let Some(emulator) = on_path("qemu-x86_64") {
            symlink(emulator, door.tool("qemu-x86_64")).expect("a link");
        }
        door.put_rt("exit 0");
        door.put_cargo("exit 0");
        fs::create_dir_all(door.beside("files")).expect("a folder");
        fs::write(door.file("empty"), "").expect("a file");
        door.age();
        door
    }

    /// `rt` that notes its call, talks as the toolchain does, keeps its work in `out/` of each crate, puts a library
    /// in its place and ends so.
    pub fn put_rt(&self, end: &str) {
        let script = format!(
            "echo \"$PWD: rt $*\" >>'{calls}'\n\
             cat >/dev/null\n\
             for crate in records spreads usm_c; do\n\
                 echo \"rt: chose --jobs 2 for $crate\"\n\
                 echo \"fn $crate::first: proved\"\n\
                 echo \"crate $crate: modules loaded=0 checked=9\"\n\
                 echo \"logic=proved functions=1\"\n\
                 mkdir -p \"../$crate/out\" && echo work >\"../$crate/out/kept\"\n\
             done\n\
             echo library >out/libusm_c.a\n\
             {end}",
            calls = self.beside("calls").display()
        );
        put_script(&self.tool("rt"), &script);
    }

    /// `x86-cargo`, and a cargo on the path: it notes its call, puts the tool in its place and ends so.
    pub fn put_cargo(&self, end: &str) {
        let script = format!(
            "echo cargo \"${{USM_C_LIB_DIR-}}\" >>'{calls}'\n\
             cat >/dev/null\n\
             cd '{clone}/host' || exit\n\
             folder=target/release\n\
             [ \"$(uname -m)\" = x86_64 ] || folder=target/x86_64-unknown-linux-gnu/release\n\
             mkdir -p \"$folder\" && cp '{program}' \"$folder/usm_sheet\"\n\
             {end}",
            calls = self.beside("calls").display(),
            clone = self.beside("clone").display(),
            program = self.beside("program").display()
        );
        put_script(&self.clone("host/x86-cargo"), &script);
        put_script(&self.tool("cargo"), "exit 1");
    }

    /// What was asked of the toolchain and of cargo since this was last asked.
    pub fn calls(&self) -> Vec<String> {
        let calls = fs::read_to_string(self.beside("calls")).unwrap_or_default();
        let _ = fs::remove_file(self.beside("calls")); // where nothing was asked there is none
        calls.lines().map(String::from).collect()
    }

    /// The calls of a clone where all is made anew, by the names of those who are called.
    pub fn called(&self) -> Vec<&'static str> {
        let rt = format!("{}: rt lib", self.clone("crates/usm_c").display());
        let name = |call: String| match call.as_str() {
            "cargo " => "cargo",
            call if call == rt => "rt",
            call => panic!("{call}"),
        };
        self.calls().into_iter().map(name).collect()
    }

    /// Takes the sources an hour back, and what was made of them some minutes, so that dates tell apart what a
    /// test does next.
    pub fn age(&self) {
        let dated = |path: PathBuf, date: &str| {
            let mut command = Command::new("find");
            command.arg(path).args(["-exec", "touch", "-d", date, "{}", "+"]);
            assert!(command.status().expect("find runs").success());
        };
        dated(self.beside("clone"), "1 hour ago");
        for (made, date) in [
            ("crates/usm_c/out/libusm_c.a", "10 minutes ago"),
            ("host/target/release/usm_sheet", "5 minutes ago"),
        ] {
            if self.clone(made).exists() {
                dated(self.clone(made), date);
            }
        }
    }

    /// Puts a file into the clone.
    pub fn put(&self, name: &str, text: &str) {
        let path = self.clone(name);
        fs::create_dir_all(path.parent().expect("a folder")).expect("a folder");
        fs::write(path, text).expect("a file of the clone");
    }

    pub fn remove(&self, name: &str) {
        fs::remove_file(self.clone(name)).expect("it was there");
    }

    pub fn beside(&self, name: &str) -> PathBuf {
        self.folder.0.join(name)
    }

    pub fn clone(&self, name: &str) -> PathBuf {
        self.beside("clone").join(name)
    }

    pub fn tool(&self, name: &str) -> PathBuf {
        self.beside("tools").join(name)
    }

    /// A file in the folder in which the script is run.
    pub fn file(&self, name: &str) -> PathBuf {
        self.beside("files").join(name)
    }

    /// `program`, with nothing on its path but the tools, in the folder of the files.
    pub fn command(&self, program: &Path) -> Command {
        self.here(Command::new(program))
    }

    fn here(&self, mut command: Command) -> Command {
        command.env_clear().env("PATH", self.beside("tools")).env("USM_C_LIB_DIR", "/nowhere");
        command.current_dir(self.beside("files")).stdin(Stdio::null());
        command
    }

    pub fn sheet(&self) -> Command {
        self.command(&self.clone("sheet"))
    }

    pub fn run(&self, arguments: &[&str]) -> Told {
        told(self.sheet().args(arguments).output().expect("sheet runs"))
    }

    /// A line of the shell, where `$0` is sheet.
    pub fn shell(&self, line: &str) -> Told {
        let mut command = self.command(&self.tool("bash"));
        told(command.args(["-c", line]).arg(self.clone("sheet")).output().expect("bash runs"))
    }

    /// sheet by one whom permissions hold, as they do not hold root.
    pub fn as_anyone(&self, arguments: &[&str]) -> Told {
        told(self.here(as_anyone(&self.clone("sheet"))).args(arguments).output().expect("sheet runs"))
    }
}
