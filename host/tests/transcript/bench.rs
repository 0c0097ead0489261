//! The program of the bench reads the files of `bench.txt`, in their order and nothing between them, and prints for
//! each its line and its table. Both files of the program are held to that text.

use std::fs;

use usm_kit::both::BOTH;

use crate::{common, folder, played};
use usm_kit::repository;

/// The files that `bench.txt` asks about, and what is printed of them.
fn expected() -> (Vec<u8>, String) {
    let text = fs::read_to_string(folder().join("bench.txt")).expect("bench.txt");
    let [library, model] = BOTH.map(|calls| {
        let questions = played(&calls, "bench.txt", &text);
        let files: Vec<Vec<u8>> = questions
            .into_iter()
            .filter(|played| played.question == "file")
            .map(|played| played.file)
            .collect();
        let printed: String =
            files.iter().map(|file| (calls.file_line)(file) + &(calls.file_table)(file)).collect();
        (files.concat(), printed)
    });
    assert!(library == model, "library and model make one bench of bench.txt");
    library
}

#[test]
fn the_program_reads_and_prints_what_the_transcript_has() {
    let (input, output) = expected();
    let files = [("stdin", input.as_slice()), ("stdout", output.as_bytes())];
    let made = common::folder("bench");
    for (name, bytes) in files {
        fs::write(made.join(name), bytes).expect("a file of the test");
    }
    let committed = repository().join("crates/bench");
    for (name, bytes) in files {
        assert!(
            fs::read(committed.join(name)).expect(name) == bytes,
            "crates/bench/{name} is not what tests/transcript/bench.txt makes: where the text is right, copy {} there",
            made.join(name).display()
        );
    }
}
