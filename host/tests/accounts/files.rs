//! The order of refusals in a file, and its round trip.

use usm::{Leg, Origin, RecordCounts, Sheet, RECORD_BYTES};
use usm_kit::accounts::{in_group, leg, placed};
use usm_kit::block::{seal, BLOCK_BYTES, RECORDS_AT};
use usm_kit::both::BOTH;

use crate::refusal;

/// Writes over bytes of one block and makes its checks fit.
fn change(file: &mut [u8], block: usize, at: usize, bytes: &[u8]) {
    let block = &mut file[block * BLOCK_BYTES..(block + 1) * BLOCK_BYTES];
    block[at..at + bytes.len()].copy_from_slice(bytes);
    seal(block);
}

/// Where in a block the byte `at` of its record `record` stands.
fn in_record(record: usize, at: usize) -> usize {
    RECORDS_AT + record * RECORD_BYTES + at
}

/// 20 holdings in blocks 0 and 1, 20 placed legs in 2 and 3, one claim in 4.
fn five_blocks() -> Vec<u8> {
    let pair = [leg("L60c"), leg("S50c")];
    let legs: Vec<Leg> = pair.iter().cycle().take(20).copied().collect();
    placed(&legs, &[10_000_000]).to_file().expect("a file")
}

/// The checker prints this line for the file, by library and model.
#[track_caller]
fn assert_line(file: &[u8], line: &str) {
    for calls in &BOTH {
        assert_eq!((calls.file_line)(file), format!("{line}\n"), "{}", calls.name);
    }
}

#[test]
fn the_sheet_itself_is_accepted() {
    assert_line(&five_blocks(), "ACCEPT 1 10000000");
}

#[test]
fn blocks_are_judged_in_file_order_and_2_before_3() {
    let mut file = five_blocks();
    change(&mut file, 3, 0, b"USM2");
    assert_line(&file, "REFUSE 3 0 3");
    file[3 * BLOCK_BYTES + 20] ^= 1;
    assert_line(&file, "REFUSE 2 0 3");
    change(&mut file, 1, 10, &[1]);
    assert_line(&file, "REFUSE 3 0 1");
}

#[test]
fn check_b_sees_what_check_a_does_not() {
    let mut file = five_blocks();
    let strike = BLOCK_BYTES + in_record(0, 12);
    assert_ne!(file[strike], file[strike + 1]);
    file.swap(strike, strike + 1); // the sum stays, the weighted sum does not
    assert_line(&file, "REFUSE 2 0 1");
}

#[test]
fn every_part_of_the_form_counts() {
    // Mark, kind 0 and 4, no records and 16, number, blocks, zeros, unused places, 496 to 507.
    let faults: [(usize, u8); 12] = [
        (3, b'2'),
        (4, 0),
        (4, 4),
        (5, 0),
        (5, 16),
        (6, 0),
        (7, 1),
        (8, 4),
        (9, 1),
        (15, 1),
        (495, 1),
        (507, 1),
    ];
    for (at, byte) in faults {
        let mut file = five_blocks();
        change(&mut file, 1, at, &[byte]);
        assert_line(&file, "REFUSE 3 0 1");
    }
}

#[test]
fn kinds_never_fall_and_only_the_last_block_is_short() {
    let mut falling = five_blocks();
    change(&mut falling, 0, 4, &[2]);
    assert_line(&falling, "REFUSE 3 0 1");
    let mut short = five_blocks();
    change(&mut short, 0, in_record(14, 0), &[0; RECORD_BYTES]);
    change(&mut short, 0, 5, &[14]);
    assert_line(&short, "REFUSE 3 0 1");
}

#[test]
fn a_table_that_passes_its_limit_is_3_at_that_block() {
    let held = in_group(0, leg("L50p"));
    let mut file = Sheet { holdings: vec![held; 256], ..Sheet::default() }.to_file().expect("a file");
    assert_line(&file, "REFUSE 14 1 0");
    // Block 17 holds record 255; with two records it would hold the 257th.
    change(&mut file, 17, in_record(1, 0), &held.to_bytes());
    change(&mut file, 17, 5, &[2]);
    assert_line(&file, "REFUSE 3 0 17");
}

#[test]
fn fields_come_after_all_blocks_and_go_by_table() {
    let mut file = five_blocks();
    change(&mut file, 4, in_record(0, 0), &[33]); // the group of claim 0
    assert_line(&file, "REFUSE 4 3 0");
    change(&mut file, 3, in_record(0, 2), &[3]); // the side of placement record 15
    assert_line(&file, "REFUSE 4 2 15");
    change(&mut file, 1, in_record(2, 0), &[1]); // the group of holdings record 17
    assert_line(&file, "REFUSE 4 1 17");
    file[4 * BLOCK_BYTES] ^= 1;
    assert_line(&file, "REFUSE 2 0 4");
}

#[test]
fn the_reader_names_the_first_short_table_and_its_need() {
    let file = five_blocks();
    let counts = RecordCounts { holdings: 20, placement: 20, claims: 1 };
    for (rooms, expected) in [
        ([639, 0, 0], refusal(17, 1, 640)),
        ([640, 639, 0], refusal(17, 2, 640)),
        ([641, 640, 31], refusal(17, 3, 32)),
        ([640, 640, 32], Ok((counts, Origin::OLD))),
    ] {
        for calls in &BOTH {
            let [mut holdings, mut placement, mut claims] = rooms.map(|room| vec![7; room]);
            let read = (calls.read_file)(&file, &mut holdings, &mut placement, &mut claims);
            assert_eq!(read, expected, "{}, rooms {rooms:?}", calls.name);
        }
    }
}

#[test]
fn a_file_read_and_written_again_is_the_same() {
    let file = five_blocks();
    assert_eq!(Sheet::from_file(&file).and_then(|sheet| sheet.to_file()), Ok(file));
}
