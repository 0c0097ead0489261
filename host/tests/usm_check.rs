//! The proved program: the line it prints for what stands on its standard input, of any length.

#![forbid(unsafe_code)]

mod common;

use std::time::Duration;

use usm_kit::accounts::fullest;
use usm_kit::block::{BLOCK_BYTES, LONGEST_FILE};
use usm_kit::model;

/// What the program prints for an input that comes in these pieces, with a pause after each.
fn printed(pieces: &[&[u8]], pause: Duration) -> String {
    common::proved::printed("usm_check", pieces, pause)
}

/// The program prints this line, and so does the model for the same bytes.
#[track_caller]
fn assert_line(input: &[u8], line: &str) {
    assert_eq!(printed(&[input], Duration::ZERO), format!("{line}\n"), "{} bytes", input.len());
    assert_eq!(model::file_line(input), format!("{line}\n"), "the model, {} bytes", input.len());
}

/// The longest file that is accepted: whoever takes it in only in part says something else.
fn full_file() -> Vec<u8> {
    let file = fullest().to_file().expect("a file");
    assert_eq!((file.len(), LONGEST_FILE), (19_968, 19_968));
    file
}

#[test]
fn every_sample_has_the_model_s_line() {
    for (name, file) in common::proved::samples() {
        assert_eq!(printed(&[&file], Duration::ZERO), model::file_line(&file), "{name}");
    }
}

#[test]
fn a_full_file_is_read_to_its_end() {
    assert_line(&full_file(), "ACCEPT 32 12800");
    let mut damaged = full_file();
    damaged[LONGEST_FILE - 1] ^= 1;
    assert_line(&damaged, "REFUSE 2 0 38");
}

#[test]
fn one_byte_too_many_is_1() {
    for byte in [0, b'U'] {
        assert_line(&[full_file(), vec![byte]].concat(), "REFUSE 1 0 0");
    }
}

#[test]
fn far_too_many_bytes_are_1() {
    // A block more, the file twice, and a mebibyte: what stands first would be accepted.
    for length in [LONGEST_FILE + BLOCK_BYTES, 2 * LONGEST_FILE, 1 << 20] {
        let input: Vec<u8> = full_file().into_iter().cycle().take(length).collect();
        assert_line(&input, "REFUSE 1 0 0");
    }
}

#[test]
fn nothing_at_all_is_1() {
    assert_line(&[], "REFUSE 1 0 0");
}

#[test]
fn an_input_in_pieces_is_read_to_its_end() {
    let file = full_file();
    let pieces: Vec<&[u8]> = file.chunks(LONGEST_FILE / 4 + 1).collect();
    assert_eq!(printed(&pieces, Duration::from_millis(50)), "ACCEPT 32 12800\n");
    let longer = [&pieces[..], &[b"U"]].concat();
    assert_eq!(printed(&longer, Duration::from_millis(50)), "REFUSE 1 0 0\n");
}
