//! A machine of the test's own: a clone of the scripts, and a path with stand-ins that tell what they were asked.

use std::fs;
use std::path::{Path, PathBuf};
use std::process::{Command, Stdio};

use crate::scripts::{put_script, put_tools, told, Folder, Told};

const TOOLS: [&str; 13] =
    ["awk", "bash", "cat", "cp", "dirname", "env", "mkdir", "mktemp", "nproc", "rm", "sed", "tail", "tee"];
const SCRIPTS: [&str; 6] = [
    ".ci/run",
    "host/x86-cargo",
    "host/native-library",
    "host/run-tests",
    "host/shared-library",
    "host/python/run-tests",
];
/// What `rt ci` says where all is well, without the number of bad edits.
pub const OK: &str = "rt: ok; handles allowed: none; must-fail edits: 3 refused, 1 of them only by a limit";
pub const PACKAGES: &str = "cargo rustc gcc g++ libc6-dev";
pub const CARGO: &str = "case \"$*\" in\n\
                     --version) echo cargo 1 ;;\n\
                     *--no-run*) ;;\n\
                     *) echo 'test result: ok. 2 passed; 0 failed;' ;;\n\
                     esac";

/// A clone with the scripts of the set-up, on a machine that has all it takes.
pub struct Machine {
    folder: Folder,
}

impl Machine {
    pub fn whole(name: &str) -> Machine {
        let machine = Machine { folder: Folder::new(&format!("set-up-{name}")) };
        let root = Path::new(env!("CARGO_MANIFEST_DIR")).join("..");
        for folder in ["clone/.ci", "clone/crates/usm_c", "clone/host/python", "packages", "temporary"] {
            fs::create_dir_all(machine.beside(folder)).expect("a folder");
        }
        for file in SCRIPTS {
            fs::copy(root.join(file), machine.beside("clone").join(file)).expect("a script");
        }
        put_tools(&machine.beside("tools"), &TOOLS);
        put_script(&machine.beside("clone/sheet"), "[ \"$1\" != check ] || echo ACCEPT 2 1500000");
        let laws = machine.told_to("laws", "echo '0 passed, 0 failed'");
        put_script(&machine.beside("clone/.ci/laws"), &laws);
        put_script(
            &machine.beside("clone/.ci/edits"),
            &machine.told_to("edits", "echo '4 passed, 0 failed'"),
        );
        machine.put("uname", "echo x86_64");
        machine.put("id", "echo 0");
        let proved = format!("[ \"$1\" != ci ] || printf '%s\\n' '{OK}; all was done' '3 passed, 0 failed'");
        machine.put("rt", &machine.told_to("rt in ${PWD##*/}:", &proved));
        machine.put("cargo", CARGO);
        machine.put("rustc", "echo rustc 1");
        machine.put("cc", "cat >/dev/null");
        machine.put("c++", "cat >/dev/null");
        machine.put("valgrind", "true");
        machine.put("chromium", "exit 0");
        for name in ["cargo", "rustc", "cc", "c++", "valgrind", "chromium"] {
            fs::copy(machine.tool(name), machine.beside("packages").join(name)).expect("a package");
        }
        let install = format!(
            "[ \"$1\" = update ] || cp '{}'/* '{}'",
            machine.beside("packages").display(),
            machine.beside("tools").display()
        );
        machine.put("apt-get", &machine.told_to("apt-get", &install));
        machine
    }

    pub fn without(name: &str, missing: &[&str]) -> Machine {
        let machine = Machine::whole(name);
        for tool in missing {
            fs::remove_file(machine.tool(tool)).expect("it was there");
        }
        machine
    }

    pub fn beside(&self, name: &str) -> PathBuf {
        self.folder.0.join(name)
    }

    pub fn tool(&self, name: &str) -> PathBuf {
        self.beside("tools").join(name)
    }

    pub fn put(&self, name: &str, text: &str) {
        put_script(&self.tool(name), text);
    }

    /// A stand-in that first writes down what it was asked.
    fn told_to(&self, name: &str, then: &str) -> String {
        format!("echo \"{name} $*\" >>'{}'\n{then}", self.beside("asked").display())
    }

    /// What stand-ins were asked, one after the other.
    pub fn asked(&self) -> Vec<String> {
        let asked = fs::read_to_string(self.beside("asked")).unwrap_or_default();
        asked.lines().map(String::from).collect()
    }

    pub fn run(&self, script: &str, arguments: &[&str]) -> Told {
        let mut command = Command::new(self.beside("clone").join(script));
        command.env_clear().env("PATH", self.beside("tools")).env("TMPDIR", self.beside("temporary"));
        told(command.args(arguments).stdin(Stdio::null()).output().expect("the script runs"))
    }

    pub fn gate(&self) -> Told {
        let run = self.run(".ci/run", &[]);
        let left = fs::read_dir(self.beside("temporary")).expect("a folder").count();
        assert_eq!(left, 0, "nothing is left behind");
        run
    }
}

/// The last line of standard output, the status, and standard error.
pub fn ending(run: &Told) -> (&str, i32, &str) {
    (run.out.lines().last().unwrap_or(""), run.status, run.err.as_str())
}
