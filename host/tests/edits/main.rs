//! The gate's `.ci/edits`, over a stand-in for the check: what counts as refused, and that nothing else does; and
//! `.ci/all-edits`.

#![forbid(unsafe_code)]

#[path = "../common/scripts.rs"]
mod scripts;

use std::fs;
use std::os::unix::fs::symlink;
use std::path::{Path, PathBuf};
use std::process::{Command, Stdio};

use scripts::{put_script, put_tools, told, Folder, Told};

const TOOLS: [&str; 8] = ["bash", "cat", "cp", "dirname", "mkdir", "mktemp", "mv", "rm"];

/// Proves every code but one that has the word wrong, says of others what rt says of such, and whether a check of the
/// crate as it stands had kept its work there.
const CHECK: &str = r#"[ "${PWD##*/} $1" = 'it check' ] || exit 9
[ ! -f out/incremental/part ] || echo taken over
not() { printf '%s\n' "$@" logic=not-proved; exit 1; }
case $(cat src/lib.rt) in
*torn*) exit 2 ;;
*unknown*) echo 'src/lib.rt:1:4: error[unknown-name]: cannot find `unknown`'; exit 1 ;;
*unread*) not './src/lib.rt:1:4: error: `get` is not in scope' ;;
*nameless*) not './proofs/get/Proof.antt:1:4: error: `returns`: the record has no field `get`' \
    './proofs/get/Proof.antt:9:5: error: 1 declaration that depends on `returns`, which was rejected, was not checked' ;;
*endless*) echo 'antt ran out of the steps that the check of one declaration may take'; exit 3 ;;
*wrong*) not './proofs/get/Proof.antt:1:4: error: `returns`: the goal does not follow' ;;
esac
mkdir -p out/incremental && echo part >out/incremental/part
echo logic=proved"#;

const CODE: &str = "one\nright & \\1 right-hand\n";

/// A repository of one crate, proved, whose wrong answers are these edits.
struct Clone {
    folder: Folder,
}

impl Clone {
    fn with(name: &str, edits: &[(&str, &str)]) -> Clone {
        let clone = Clone { folder: Folder::new(&format!("edits-{name}")) };
        let root = Path::new(env!("CARGO_MANIFEST_DIR")).join("..");
        for script in [".ci/edits", ".ci/all-edits", "tools/try_edits.py"] {
            clone.put(script, "");
            fs::copy(root.join(script), clone.beside(script)).expect("a script");
        }
        clone.put("crates.txt", "it:\n");
        clone.put("crates/it/src/lib.rt", CODE);
        clone.put("crates/it/proofs/Lib.antt", "one\n");
        for (name, text) in edits {
            clone.put(&edit_path(name), text);
        }
        put_tools(&clone.beside("path"), &TOOLS);
        symlink(python(), clone.beside("path/python3")).expect("a link");
        put_script(&clone.beside("path/rt"), CHECK);
        fs::create_dir(clone.beside("temporary")).expect("a folder");
        clone
    }

    fn beside(&self, name: &str) -> PathBuf {
        self.folder.0.join(name)
    }

    fn put(&self, name: &str, text: &str) {
        let file = self.beside(name);
        fs::create_dir_all(file.parent().expect("it stands in a folder")).expect("a folder");
        fs::write(file, text).expect("a file");
    }

    fn text(&self, name: &str) -> String {
        fs::read_to_string(self.beside(name)).expect("a file")
    }

    fn run(&self, script: &str, arguments: &[&str]) -> Told {
        let mut command = Command::new(self.beside(script));
        command.env_clear().env("PATH", self.beside("path")).env("TMPDIR", self.beside("temporary"));
        told(command.args(arguments).stdin(Stdio::null()).output().expect("the script runs"))
    }

    /// What is said of the edits, without the times, and the last line and the status.
    fn tried(&self, arguments: &[&str]) -> (Vec<String>, String, i32) {
        let run = self.run(".ci/edits", arguments);
        assert_eq!(fs::read_dir(self.beside("temporary")).expect("a folder").count(), 0, "nothing is left");
        let mut said: Vec<String> = run.out.lines().map(String::from).collect();
        let last = said.pop().expect("a last line");
        let untimed = |line: String| {
            let (before, why) = line.split_once(" s)").expect("a time");
            format!("{}{why}", before.rsplit_once(" (").expect("a time").0)
        };
        let mut said: Vec<String> = said.into_iter().map(untimed).collect();
        said.sort();
        (said, last, run.status)
    }
}

/// Python itself, which rt is written in: what is on the path may be a script that looks for it.
fn python() -> PathBuf {
    let said = Command::new("python3").args(["-c", "import sys; print(sys.executable)"]).output();
    PathBuf::from(told(said.expect("python3, which rt takes")).out.trim_end())
}

fn edit_path(name: &str) -> String {
    format!("crates/it/must-fail/{name}.edit")
}

fn expected(said: &[&str], last: &str, status: i32) -> (Vec<String>, String, i32) {
    (said.iter().map(|words| format!("edits: it/{words}")).collect(), String::from(last), status)
}

const REFUSED: &str = "refused: ./proofs/get/Proof.antt:1:4: error: `returns`: the goal does not follow";
const WRONG: &str = "file: src/lib.rt\nold: one\nnew: wrong\n";
const HARMLESS: &str = "file: src/lib.rt\nold: one\nnew: two\n";

#[test]
fn refused_edits_pass_and_the_crate_stays_as_it_was() {
    let two = "# a comment\nfile: src/lib.rt\nold: one\nnew:\nold: right & \\1\nnew: wrong & \\1";
    let clone = Clone::with("refused", &[("first", two), ("second", WRONG)]);
    let refused = ["first", "second"].map(|name| format!("{name}: {REFUSED}"));
    let refused = refused.iter().map(String::as_str).collect::<Vec<&str>>();
    assert_eq!(clone.tried(&[]), expected(&refused, "2 passed, 0 failed", 0));
    assert_eq!(clone.text("crates/it/src/lib.rt"), CODE);
    for name in ["first", "second"] {
        let log = clone.text(&format!("target/edits/it/{name}.log"));
        let (begun, ended) = (log.starts_with("taken over\n"), log.ends_with("\nlogic=not-proved\n"));
        assert!(begun && ended, "over what the check of the crate as it stands kept: {log}");
    }
    let left = |folder: &str| fs::read_dir(clone.beside(folder)).expect("a folder").count();
    assert_eq!((left("target"), left("crates/it")), (1, 3), "the logs");
    let one = clone.tried(&[clone.beside(&edit_path("second")).to_str().expect("a path")]);
    assert_eq!(one, expected(&refused[1..], "1 passed, 0 failed", 0));
}

#[test]
fn an_edit_that_is_still_proved_or_never_reaches_the_prover_fails() {
    let new = |word: &str| format!("file: src/lib.rt\nold: one\nnew: {word}\n");
    let words = ["endless", "nameless", "torn", "unknown", "unread"];
    let texts = words.map(new);
    let mut edits: Vec<(&str, &str)> = words.into_iter().zip(texts.iter().map(String::as_str)).collect();
    edits.extend([("harmless", HARMLESS), ("wrong", WRONG)]);
    let said = [
        "endless: REFUSED ONLY BY A LIMIT of the prover: \
         antt ran out of the steps that the check of one declaration may take",
        "harmless: NOT REFUSED: the crate is still proved with this edit",
        "nameless: A NAME IS MISSING: ./proofs/get/Proof.antt:1:4: error: `returns`: the record has no field `get`",
        "torn: BAD EDIT: it did not reach the prover (exit 2): target/edits/it/torn.log",
        "unknown: BAD EDIT: it did not reach the prover (exit 1): \
         src/lib.rt:1:4: error[unknown-name]: cannot find `unknown`",
        "unread: BAD EDIT: the prover cannot read it: ./src/lib.rt:1:4: error: `get` is not in scope",
        &format!("wrong: {REFUSED}"),
    ];
    assert_eq!(Clone::with("proved", &edits).tried(&[]), expected(&said, "1 passed, 6 failed", 1));
}

#[test]
fn an_edit_that_does_not_fit_fails() {
    let edits = [
        ("again", "file: src/lib.rt\nold: one\nnew: one wrong\nnew: wrong\n"),
        ("empty", "file: src/lib.rt\nnew: wrong\n"),
        ("never", "file: src/lib.rt\nold: absent\nnew: wrong\n"),
        ("no-file", "file: src/other.rt\nold: one\nnew: wrong\n"),
        ("nothing", "# only a comment\n"),
        ("outside", "file: src/../../it/src/lib.rt\nold: one\nnew: wrong\n"),
        ("proofs", "file: proofs/Lib.antt\nold: one\nnew: wrong\n"),
        ("twice", "file: src/lib.rt\nold: right\nnew: wrong\n"),
    ];
    let why = [
        "a 'new:' line has no 'file:' line, or no 'old:' line of its own, before it",
        "a 'new:' line has no 'file:' line, or no 'old:' line of its own, before it",
        "this stands in src/lib.rt 0 times, and not once: absent",
        "there is no file src/other.rt",
        "it changes nothing",
        "src/../../it/src/lib.rt is no file below src/ or specs/",
        "proofs/Lib.antt is no file below src/ or specs/",
        "this stands in src/lib.rt 2 times, and not once: right",
    ];
    let does_not = "BAD EDIT: it does not fit the code and definitions of it";
    let said: Vec<String> =
        edits.iter().zip(why).map(|((name, _), why)| format!("{name}: {does_not}: {why}")).collect();
    let said = said.iter().map(String::as_str).collect::<Vec<&str>>();
    assert_eq!(Clone::with("fit", &edits).tried(&[]), expected(&said, "0 passed, 8 failed", 1));
}

#[test]
fn to_try_nothing_is_no_pass() {
    let nothing = |clone: &Clone, arguments: &[&str], words: &str| {
        let run = clone.run(".ci/edits", arguments);
        assert_eq!((run.out.as_str(), run.status), ("0 passed, 1 failed\n", 2));
        assert_eq!(run.err, format!("edits: {words}\n"));
    };
    let none = Clone::with("none", &[]);
    nothing(&none, &[], "there is no edit crates/*/must-fail/*.edit");
    let clone = Clone::with("not-proved", &[("it", WRONG)]);
    nothing(&clone, &["other.edit"], "there is no edit other.edit");
    clone.put("crates/it/src/lib.rt", "one\nwrong\n");
    nothing(
        &clone,
        &[],
        "it is not proved as it stands, so its edits are not tried: target/edits/it/check.log",
    );
}

#[test]
fn all_edits_are_tried_by_the_toolchain_in_a_clean_clone() {
    let clone = Clone::with("all", &[("first", WRONG)]);
    clone.put("crates/it/must-fail/second.edit", WRONG);
    put_script(
        &clone.beside("path/git"),
        "[ \"$1 $2\" = 'clone -q' ] && mkdir \"$4\" && cp -R crates \"$4\"",
    );
    put_script(&clone.beside("path/rt"), "echo rt \"$@\" in crates/it/must-fail/*; exit 1");
    let run = clone.run(".ci/all-edits", &[]);
    let files =
        ["first.edit", "second.edit"].map(|name| format!(" crates/it/must-fail/{name}"));
    assert_eq!(
        (run.out, run.err.as_str(), run.status),
        (format!("rt must-fail --anew in{}\n", files.concat()), "", 1)
    );
    assert!(clone.beside(&edit_path("first")).exists(), "the repository itself stays");
}
