//! Blocks joined, in any order, torn, too many; and rooms that are too short.

use usm::{Refusal, Sheet, RECORD_BYTES};
use usm_kit::accounts::fullest;
use usm_kit::block::{BLOCK_BYTES, LONGEST_FILE, RECORDS_AT};

use super::compare::{listed, salvage, salvage_into, Found, Rooms};
use super::inputs::{changed, files_of_four_blocks, four_blocks, origins};
use super::laws;
use crate::files;

#[test]
fn blocks_of_every_form_and_account_joined() {
    let sources = origins().map(|origin| files::of(&four_blocks(), origin));
    for pattern in 0..256 {
        let from = |index: usize| &sources[pattern >> (2 * index) & 3];
        let file: Vec<u8> =
            (0..4).flat_map(|index| from(index)[index * BLOCK_BYTES..][..BLOCK_BYTES].to_vec()).collect();
        // Whole, and with each block damaged in turn, so that another is the first that is kept.
        for damaged in 0..5 {
            let mut file = file.clone();
            if let Some(byte) = file.get_mut(damaged * BLOCK_BYTES + 100) {
                *byte ^= 1;
            }
            let _ = salvage(&format!("pattern {pattern}, {damaged}"), &file);
            laws::hold(&"joined", &file);
        }
    }
}

#[test]
fn kinds_in_every_order() {
    for file in files_of_four_blocks() {
        for order in 0..256 {
            let places = [0, 1, 2, 3].map(|place| order >> (2 * place) & 3);
            // Each block once; and blocks that come again while others are not there.
            let shuffled: Vec<u8> =
                places.iter().flat_map(|index| file[index * BLOCK_BYTES..][..BLOCK_BYTES].to_vec()).collect();
            assert_eq!(listed(&shuffled), [], "blocks {places:?}");
            laws::hold(&"orders", &shuffled);
        }
    }
}

#[test]
fn every_length_of_a_torn_file() {
    for file in files_of_four_blocks() {
        for length in 0..=file.len() {
            let (whole, rest) = (length / BLOCK_BYTES, length % BLOCK_BYTES);
            let list = (rest > 0).then_some((whole as u32, 1)).into_iter().collect();
            let expected = match length {
                0 => Err(Refusal::new(1, 0, 0)),
                1..=511 => Err(Refusal::new(2, 0, 0)),
                _ => Ok(Found { bytes: whole * BLOCK_BYTES, list }),
            };
            assert_eq!(salvage(&"lengths", &file[..length]), expected, "length {length}");
        }
    }
    let longest = Sheet { account: 7, ..fullest() }.to_file().expect("a file");
    assert_eq!(longest.len(), LONGEST_FILE);
    assert_eq!(listed(&longest), []);
    assert_eq!(listed(&longest[..LONGEST_FILE - 1]), [(38, 1)]);
    for more in [1, BLOCK_BYTES, 100_000] {
        let long = [&longest[..], &vec![0; more][..]].concat();
        assert_eq!(salvage(&"lengths", &long), Err(Refusal::new(1, 0, 0)), "{more} too many");
    }
}

/// A kind's records fill their table, and pass it by one.
#[test]
fn limits_reached_and_passed() {
    for file in [fullest(), Sheet { account: 7, ..fullest() }].map(|sheet| sheet.to_file().expect("a file")) {
        // 18 blocks of holdings and 18 of placement, the last with one record; claims 15, 15 and 2.
        for (last, count) in [(17, 1), (35, 1), (38, 2)] {
            let full = |count: u8| {
                changed(&file, last, |block| {
                    block[5] = count;
                    let last = RECORDS_AT + RECORD_BYTES * usize::from(count - 1);
                    block.copy_within(RECORDS_AT..RECORDS_AT + RECORD_BYTES, last);
                })
            };
            assert_eq!(listed(&full(count)), []);
            let passed = full(count + 1);
            for rooms in [Rooms::enough_for(&passed), Rooms { file: 0, list: [0, 0] }] {
                assert_eq!(
                    salvage_into(&"limits", &passed, rooms),
                    Err(Refusal::new(3, 0, 0)),
                    "block {last}"
                );
            }
            // One block less of that kind, and the rest goes into the file.
            let mut fewer = passed.clone();
            fewer[(last - 1) * BLOCK_BYTES + 16] ^= 1;
            assert_eq!(listed(&fewer), [(last as u32 - 1, 2)]);
            laws::hold(&"limits", &fewer);
        }
    }
}

/// Room short by one, and more, of the file and of either list: nothing is written then.
#[test]
fn every_room_for_file_and_list() {
    for file in files_of_four_blocks() {
        // Blocks 1 and 3 are dropped, and a torn one at the end.
        let mut damaged = [&file[..], &file[..BLOCK_BYTES + 99]].concat();
        damaged[BLOCK_BYTES + 20] ^= 1;
        damaged = changed(&damaged, 3, |block| block[10] = 1);
        let list = [(1, 2), (3, 3), (5, 1)];
        let needed = 3 * BLOCK_BYTES;
        for file_room in [0, 1, BLOCK_BYTES, needed - 1, needed, needed + 1, needed + 600] {
            for indices in 0..=5 {
                for numbers in 0..=5 {
                    let rooms = Rooms { file: file_room, list: [indices, numbers] };
                    let expected = if file_room < needed {
                        Err(Refusal::new(17, 0, needed as u64))
                    } else if indices < list.len() || numbers < list.len() {
                        Err(Refusal::new(17, 0, list.len() as u64))
                    } else {
                        Ok(Found { bytes: needed, list: list.into() })
                    };
                    assert_eq!(salvage_into(&"rooms", &damaged, rooms), expected, "{rooms:?}");
                }
            }
        }
    }
}
