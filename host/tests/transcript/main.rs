//! The transcript: questions to single calls, each with its answer beside it, one text for each subject. It is
//! played through the library and through the independent model. README.md tells of its language.

#![forbid(unsafe_code)]

mod answers;
mod bench;
#[path = "../common/mod.rs"]
mod common;
mod memory;
mod notation;
mod play;

use std::fs;
use std::path::PathBuf;

use play::{play, Played, BEGINS};
use usm_kit::both::{Calls, LIBRARY, MODEL};
use usm_kit::repository;

fn folder() -> PathBuf {
    repository().join("host/tests/transcript")
}

/// The names of the transcript's texts, and the texts.
fn texts() -> Vec<(String, String)> {
    let entries = fs::read_dir(folder()).expect("the folder").map(|entry| entry.expect("an entry").path());
    let mut texts: Vec<(String, String)> = entries
        .filter(|path| path.extension().map_or(false, |kind| kind == "txt"))
        .map(|path| {
            let name = path.file_name().expect("a name").to_string_lossy().into_owned();
            (name, fs::read_to_string(&path).expect("a text"))
        })
        .collect();
    texts.sort();
    texts
}

/// What a text's questions say, by these calls.
fn played(calls: &Calls, name: &str, text: &str) -> Vec<Played> {
    play(calls, text).unwrap_or_else(|error| panic!("{}: tests/transcript/{name}, {error}", calls.name))
}

/// Plays every text and compares answer by answer.
fn assert_expected(calls: &Calls) {
    let mut questions = 0;
    let mut wrong = Vec::new();
    for (name, text) in texts() {
        for Played { line, case, question, expected, said, .. } in played(calls, &name, &text) {
            questions += 1;
            assert!(!case.is_empty(), "{name}, line {line}: `{question}` stands in no case");
            if said != expected {
                wrong.push(format!(
                    "{name}, line {line}, '{case}', `{question}`: {expected}\n  but {}: {said}",
                    calls.name
                ));
            }
        }
    }
    assert!(wrong.is_empty(), "{} of {questions} answers differ:\n{}", wrong.len(), wrong.join("\n"));
    assert!(questions >= 1_000, "the transcript has a thousand answers, not {questions}");
}

#[test]
fn the_library_says_what_the_transcript_says() {
    assert_expected(&LIBRARY);
}

#[test]
fn the_model_says_what_the_transcript_says() {
    assert_expected(&MODEL);
}

/// A link to a case names it: the cases that begin from nothing have names of their own.
#[test]
fn a_case_that_begins_has_a_name_of_its_own() {
    for (name, text) in texts() {
        let mut cases: Vec<&str> = text.lines().filter_map(|line| line.strip_prefix(BEGINS)).collect();
        let count = cases.len();
        cases.sort_unstable();
        cases.dedup();
        assert_eq!(cases.len(), count, "{name}");
        let first = text.lines().find(|line| !line.is_empty() && !line.starts_with('#')).unwrap_or("");
        assert!(first.starts_with(BEGINS), "{name} begins with `{first}`");
    }
}

/// Where and why a transcript cannot be played.
fn error(transcript: &str) -> String {
    play(&MODEL, transcript).err().expect("no such transcript")
}

#[test]
fn what_cannot_be_played_is_told_with_its_line() {
    assert_eq!(error("# a word\n\nmargine 1\n"), "line 3: `margine 1`: no such command");
    assert_eq!(error("== a case\nsheets -> ?\n"), "line 2: `sheets`: no such command");
    assert_eq!(error("x 1 2\n"), "line 1: `x 1 2`: no such command");
    assert_eq!(error("hp 0\n"), "line 1: `hp 0`: no such command");
    assert_eq!(error("margin\n"), "line 1: `margin`: no such command");
    assert_eq!(error("margin 1 2\n"), "line 1: `margin 1 2`: no such command");
    assert_eq!(error("margin x\n"), "line 1: `margin x`: `x` is no number that fits here");
    assert_eq!(error("byte f 0 256\n"), "line 1: `byte f 0 256`: `256` is no number that fits here");
    assert_eq!(error("check f\n"), "line 1: `check f`: `f` is none of h, p and c");
    assert_eq!(error("cut x 3\n"), "line 1: `cut x 3`: `x` is none of h, p, c, d and f");
    assert_eq!(error("fill f 2\n"), "line 1: `fill f 2`: `f` is none of h, p, c and d");
    assert_eq!(error("clear\nc 1\n"), "line 2: `c 1`: a group and a margin each, not 1 numbers");
    assert_eq!(error("c 65536 0\n"), "line 1: `c 65536 0`: 65536 does not fit in 2 bytes");
    assert_eq!(error("fill h 2\n"), "line 1: `fill h 2`: there is no record to repeat");
    assert_eq!(error("byte f 0 1\n"), "line 1: `byte f 0 1`: there is no byte 0");
    assert_eq!(error("clear; seal 0\n"), "line 1: `seal 0`: there is no block 0");
}

#[test]
fn a_leg_that_cannot_be_read_is_told() {
    assert_eq!(error("open 1\n"), "line 1: `open 1`: there is no leg");
    assert_eq!(error("p 1 L60\n"), "line 1: `p 1 L60`: `L60` is no leg, and says nothing about one");
    assert_eq!(error("h L50.1c\n"), "line 1: `h L50.1c`: `L50.1c` is no leg, and says nothing about one");
    assert_eq!(
        error("h S50c kind=1\n"),
        "line 1: `h S50c kind=1`: `kind=1` is no leg, and says nothing about one"
    );
    assert_eq!(error("h S50c unit=65536\n"), "line 1: `h S50c unit=65536`: 65536 does not fit in 2 bytes");
}

#[test]
fn a_question_without_its_answer_is_told() {
    assert_eq!(error("check h\n"), "line 1: `check h`: there is no answer behind it");
    assert_eq!(error("clear -> 0\n"), "line 1: `0`: there is no question before it");
    assert_eq!(error("check h; clear -> 0\n"), "line 1: `check h`: a question stands last in its line");
}
