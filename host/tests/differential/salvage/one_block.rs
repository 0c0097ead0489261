//! One block damaged, in every way.

use usm_kit::block::{seal, ACCOUNT_AT, ACCOUNT_END, BLOCK_BYTES, RECORDS_AT};
use usm_kit::fields::{put, GROUP};

use super::compare::listed;
use super::inputs::{block, changed, files_of_four_blocks};
use super::laws;
use crate::values::{BAD_IN_CLAIMS, BAD_IN_LEGS};

#[test]
fn every_byte_of_every_block_damaged_and_its_sums_mended_or_not() {
    for file in files_of_four_blocks() {
        for at in 0..file.len() {
            let (index, place) = (at / BLOCK_BYTES, at % BLOCK_BYTES);
            // 3 makes one mark of the other.
            for change in [1, 3, 0xFF] {
                let mut damaged = file.clone();
                damaged[at] ^= change;
                assert_eq!(listed(&damaged), [(index as u32, 2)], "byte {at} changed by {change}");
                seal(block(&mut damaged, index));
                let mended = listed(&damaged);
                let is_account = file.starts_with(b"USM2") && (ACCOUNT_AT..ACCOUNT_END).contains(&place);
                match (index, place) {
                    // The first block is kept, and so the others are of another account.
                    (0, _) if is_account => assert_eq!(mended, [(1, 20), (2, 20), (3, 20)], "byte {at}"),
                    // Its number, the count of blocks, and the sums, which fit again.
                    (_, 6..=9 | 508..=511) => assert_eq!(mended, [], "byte {at} changed by {change}"),
                    _ => assert!(mended.iter().all(|(listed, _)| *listed == index as u32), "byte {at}"),
                }
            }
        }
    }
}

#[test]
fn every_value_of_kind_and_count() {
    for file in files_of_four_blocks() {
        for index in 0..4 {
            for at in [4, 5] {
                for value in 0..=255 {
                    let changed = changed(&file, index, |block| block[at] = value);
                    let known = if at == 4 { 1..=3 } else { 1..=15 };
                    if !known.contains(&value) {
                        assert_eq!(listed(&changed), [(index as u32, 3)], "byte {at} is {value}");
                    } else {
                        listed(&changed);
                    }
                    laws::hold(&"kind and count", &changed);
                }
            }
        }
    }
}

#[test]
fn every_field_out_of_range_in_a_record() {
    for file in files_of_four_blocks() {
        for (index, last, values) in
            [(0, 14, &BAD_IN_LEGS[..]), (1, 0, &BAD_IN_LEGS), (2, 2, &BAD_IN_LEGS), (3, 1, &BAD_IN_CLAIMS)]
        {
            for (field, value) in values {
                for record in [0, last] {
                    let bad =
                        changed(&file, index, |block| put(&mut block[RECORDS_AT..], record, *field, *value));
                    // A group is bad in the holdings only.
                    let is_bad = index != 2 || (*field, *value) != (GROUP, 1);
                    let expected: Vec<(u32, u8)> = is_bad.then_some((index as u32, 4)).into_iter().collect();
                    assert_eq!(listed(&bad), expected, "record {record}: {field:?} is {value}");
                    // 2 comes first, and 3.
                    let mut differ = bad.clone();
                    differ[index * BLOCK_BYTES + 500] ^= 1;
                    assert_eq!(listed(&differ), [(index as u32, 2)]);
                    let out_of_form = changed(&bad, index, |block| block[507] = 1);
                    assert_eq!(listed(&out_of_form), [(index as u32, 3)]);
                }
            }
        }
    }
}
