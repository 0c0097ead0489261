//! The heads of the edits: each says what is wrong with it, of which calls the answer is then wrong, and an input on
//! which it is; every public call has two; and docs/PROMISES.md names each edit, and no other.

#![forbid(unsafe_code)]

use std::collections::BTreeSet;
use std::fs;
use std::path::{Path, PathBuf};

/// The calls of which docs/PROMISES.md says, under 'Exceptions', why they have fewer than two edits.
const EXCEPTIONS: [&str; 3] = ["Contracts::number", "Units::number", "Units::none"];

struct Edit {
    library: String,
    name: String,
    text: String,
}

impl Edit {
    /// What stands in its head after this word.
    fn head(&self, word: &str) -> Option<&str> {
        let mut lines = self.text.lines().take_while(|line| line.starts_with("# "));
        lines.find_map(|line| line.strip_prefix("# ")?.strip_prefix(word)).filter(|rest| !rest.is_empty())
    }

    fn calls(&self) -> BTreeSet<&str> {
        self.head("call: ").into_iter().flat_map(|calls| calls.split(", ")).collect()
    }
}

fn crates() -> PathBuf {
    Path::new(env!("CARGO_MANIFEST_DIR")).join("../crates")
}

/// The files of a folder with this ending, those of folders in it too; none where there is no such folder.
fn files(folder: &Path, ending: &str) -> Vec<PathBuf> {
    let mut found = Vec::new();
    for entry in fs::read_dir(folder).into_iter().flatten() {
        let path = entry.expect("an entry").path();
        if path.is_dir() {
            found.extend(files(&path, ending));
        } else if path.extension().map_or(false, |found| found == ending) {
            found.push(path);
        }
    }
    found.sort();
    found
}

fn libraries() -> Vec<String> {
    let entries = fs::read_dir(crates()).expect("the crates").map(|entry| entry.expect("an entry").path());
    let libraries = entries.filter(|folder| folder.join("src/lib.rt").is_file());
    libraries.map(|folder| folder.file_name().expect("a name").to_string_lossy().into_owned()).collect()
}

fn edits() -> Vec<Edit> {
    let mut edits = Vec::new();
    for library in libraries() {
        for file in files(&crates().join(&library).join("must-fail"), "edit") {
            let name = file.file_stem().expect("a name").to_string_lossy().into_owned();
            let text = fs::read_to_string(&file).expect("an edit");
            edits.push(Edit { library: library.clone(), name, text });
        }
    }
    edits
}

/// The name of the public function that a line of code begins, after the type whose methods stand there.
fn public_call(line: &str, kind: Option<&str>) -> Option<String> {
    let line = line.trim_start();
    let rest = line.strip_prefix("pub fn ").or_else(|| line.strip_prefix("pub extern \"C\" fn "))?;
    let name = rest.split('(').next()?;
    Some(kind.map_or(name.into(), |kind| format!("{kind}::{name}")))
}

fn public_calls() -> BTreeSet<String> {
    let mut calls = BTreeSet::new();
    for file in libraries().iter().flat_map(|library| files(&crates().join(library).join("src"), "rt")) {
        let code = fs::read_to_string(&file).expect("code");
        let mut kind = None;
        for line in code.lines() {
            let opened = line.strip_prefix("impl ").map(|rest| rest.trim_end_matches(" {"));
            kind = if line == "}" { None } else { opened.or(kind) };
            calls.extend(public_call(line, kind));
        }
    }
    calls
}

#[test]
fn every_head_says_what_is_wrong_of_which_calls_and_where() {
    let calls = public_calls();
    for edit in edits() {
        let place = format!("{}/{}", edit.library, edit.name);
        for word in ["", "call: ", "input: "] {
            assert!(edit.head(word).is_some(), "{place} has no '# {word}' in its head");
        }
        for call in edit.calls() {
            assert!(calls.contains(call), "{place} names {call}, which is no public call");
        }
    }
}

#[test]
fn every_public_call_has_two_wrong_answers() {
    let edits = edits();
    for call in public_calls() {
        let of_call = edits.iter().filter(|edit| edit.calls().contains(call.as_str())).count();
        let enough = of_call >= 2 || EXCEPTIONS.contains(&call.as_str());
        assert!(enough, "{call} has {of_call} edits");
    }
    for call in EXCEPTIONS {
        assert!(public_calls().contains(call), "{call} is no public call");
    }
}

/// The edits that the tables of wrong answers name under the heading of a library.
fn named<'a>(page: &'a str, library: &str) -> Vec<&'a str> {
    let heading = format!("## {library}");
    let section = page.lines().skip_while(|line| *line != heading).skip(1);
    let section = section.take_while(|line| !line.starts_with("## "));
    let rows = section.skip_while(|line| *line != "| Wrong answer | Edit |").skip(2);
    let rows = rows.take_while(|line| line.starts_with("| "));
    rows.map(|row| row.trim_end_matches("` |").rsplit('`').next().expect("a last word")).collect()
}

#[test]
fn the_page_names_each_edit_once_and_no_other() {
    let page = fs::read_to_string(crates().join("../docs/PROMISES.md")).expect("the page");
    for library in libraries() {
        let edits = edits();
        let own = edits.iter().filter(|edit| edit.library == library).map(|edit| edit.name.as_str());
        let mut own: Vec<&str> = own.collect();
        let mut named = named(&page, &library);
        own.sort();
        named.sort();
        assert_eq!(named, own, "docs/PROMISES.md, under {library}");
    }
}
