//! The proved program `bench`: where it ends one file of its input and begins the next. What it prints of the
//! accounts is held to tests/transcript/bench.txt.

#![forbid(unsafe_code)]

mod common;

use std::time::Duration;

use usm_kit::accounts::{fullest, leg, placed};
use usm_kit::block::BLOCK_BYTES;
use usm_kit::model;

/// The program takes no more than this of its input.
const LONGEST_INPUT: usize = 131_072;

/// The program takes the parts of this input for its files: it prints what the model prints for each by itself.
#[track_caller]
fn assert_files(parts: &[&[u8]]) {
    let printed = common::proved::printed("bench", &[&parts.concat()], Duration::ZERO);
    let expected: String =
        parts.iter().map(|file| model::file_line(file) + &model::file_table(file)).collect();
    assert_eq!(printed, expected);
}

/// A file of three blocks, which is accepted.
fn vertical() -> Vec<u8> {
    placed(&[leg("L60c"), leg("S50c")], &[1_000_000]).to_file().expect("a file")
}

/// The same, with another number in bytes 8 and 9 of its first block.
fn of_blocks(number: u16) -> Vec<u8> {
    let mut file = vertical();
    file[8..10].copy_from_slice(&number.to_le_bytes());
    file
}

#[test]
fn a_file_has_as_many_blocks_as_its_first_one_says() {
    let (small, full) = (vertical(), fullest().to_file().expect("a file"));
    assert_files(&[&small, &full, &small]);
    let mut damaged = small.clone();
    damaged[BLOCK_BYTES + 8] = 9;
    assert_files(&[&damaged, &small]);
    // The third block, left behind, says three: two of the next file go with it.
    let split = of_blocks(2);
    let ((two, third), (more, last)) = (split.split_at(2 * BLOCK_BYTES), small.split_at(2 * BLOCK_BYTES));
    assert_files(&[two, &[third, more].concat(), last]);
}

#[test]
fn no_input_has_no_file() {
    assert_files(&[]);
}

#[test]
fn where_no_blocks_or_too_many_are_said_the_rest_is_one_file() {
    for number in [0, 7, 40, 256, u16::MAX] {
        assert_files(&[&vertical(), &[of_blocks(number), vertical()].concat()]);
    }
    for torn in [1, 8, 9, 10, BLOCK_BYTES, 3 * BLOCK_BYTES - 1] {
        assert_files(&[&vertical(), &vertical()[..torn]]);
    }
}

#[test]
fn forty_blocks_are_one_file_that_is_too_long() {
    let mut long = [of_blocks(40), vec![0; 37 * BLOCK_BYTES]].concat();
    assert_files(&[&long, &vertical()]);
    long.truncate(39 * BLOCK_BYTES);
    assert_files(&[&long]);
}

#[test]
fn what_is_too_long_for_the_program_is_cut() {
    let input = vertical().repeat(86);
    let printed = common::proved::printed("bench", &[&input], Duration::ZERO);
    let whole = LONGEST_INPUT / (3 * BLOCK_BYTES);
    assert_eq!((whole, printed.matches("ACCEPT 1 1000000\n").count()), (85, 85));
    assert!(printed.ends_with(&model::file_table(&vertical()[..LONGEST_INPUT % (3 * BLOCK_BYTES)])));
}
