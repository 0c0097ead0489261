//! A damaged file salvaged (document 02, [10]), worked by hand.

use usm::{salvage_file, Dropped, Leg, Reason, Refusal, Sheet};
use usm_kit::accounts::{fullest, in_group, leg, placed};
use usm_kit::block::{account_of, renumber, seal, BLOCK_BYTES, LONGEST_FILE, MOST_BLOCKS, RECORDS_AT};
use usm_kit::both::BOTH;

use crate::refusal;

/// The file that comes out, and of each dropped block index and number.
type Made = Result<(Vec<u8>, Vec<(u32, u8)>), Refusal>;

/// Salvages the bytes by library and model, which answer this.
#[track_caller]
fn assert_made(bytes: &[u8], expected: Made) {
    for calls in &BOTH {
        let mut file = vec![0xA5; LONGEST_FILE];
        let (mut indices, mut numbers) = ([77; MOST_BLOCKS], [99; MOST_BLOCKS]);
        let counts = (calls.salvage)(bytes, &mut file, &mut indices, &mut numbers);
        let made = counts.map(|counts| {
            assert!(file[counts.bytes..].iter().all(|byte| *byte == 0xA5), "{}", calls.name);
            assert!(indices[counts.dropped..].iter().all(|index| *index == 77), "{}", calls.name);
            assert!(numbers[counts.dropped..].iter().all(|number| *number == 99), "{}", calls.name);
            let list = indices.into_iter().zip(numbers).take(counts.dropped).collect();
            (file[..counts.bytes].to_vec(), list)
        });
        assert!(made == expected, "{}: {:?}", calls.name, made.map(|(file, list)| (file.len(), list)));
    }
}

/// 20 holdings in blocks 0 and 1, 20 placed legs in 2 and 3, one claim in 4; no two of a kind are alike.
fn sheet(account: u64) -> Sheet {
    let legs: Vec<Leg> = (1..=20).map(|strike| Leg { strike, ..leg("L60c") }).collect();
    Sheet { account, ..placed(&legs, &[10_000_000]) }
}

fn file(account: u64) -> Vec<u8> {
    sheet(account).to_file().expect("a file")
}

fn blocks(file: &[u8], chosen: &[usize]) -> Vec<u8> {
    chosen.iter().flat_map(|block| &file[block * BLOCK_BYTES..][..BLOCK_BYTES]).copied().collect()
}

/// Sets a byte of one block and makes its checks fit.
fn set(file: &mut [u8], block: usize, at: usize, byte: u8) {
    let block = &mut file[block * BLOCK_BYTES..][..BLOCK_BYTES];
    block[at] = byte;
    seal(block);
}

#[test]
fn an_undamaged_file_comes_out_the_same() {
    for file in [file(0), file(7), fullest().to_file().expect("a file")] {
        assert_made(&file, Ok((file.clone(), vec![])));
        assert_eq!(salvage_file(&file).map(|salvaged| salvaged.file), Ok(file));
    }
}

#[test]
fn one_bad_block_costs_its_own_records_only() {
    for account in [0, 7] {
        let mut damaged = file(account);
        damaged[BLOCK_BYTES + 20] ^= 1;
        let mut left = sheet(account);
        left.holdings.truncate(15);
        assert_made(&damaged, Ok((left.to_file().expect("a file"), vec![(1, 2)])));
        // The first block of a kind: its last five records move up.
        let mut damaged = file(account);
        damaged[2 * BLOCK_BYTES + 511] ^= 1;
        let mut left = sheet(account);
        left.placement.drain(..15);
        assert_made(&damaged, Ok((left.to_file().expect("a file"), vec![(2, 2)])));
    }
}

#[test]
fn numbers_and_order_are_set_aside() {
    let sound = file(7);
    for order in [[4, 3, 2, 1, 0], [1, 0, 3, 2, 4], [2, 4, 0, 3, 1]] {
        let mut turned = blocks(&sound, &order);
        let mut left = sheet(7);
        // Records go by kind, in the order in which their blocks stand.
        let first = |block: usize| order.iter().position(|place| *place == block);
        if first(1) < first(0) {
            left.holdings.rotate_left(15);
        }
        if first(3) < first(2) {
            left.placement.rotate_left(15);
        }
        let left = left.to_file().expect("a file");
        assert_made(&turned, Ok((left.clone(), vec![])));
        renumber(&mut turned);
        assert_made(&turned, Ok((left, vec![])));
    }
    // A short block may stand before others of its kind, and a block may come twice.
    let twice = blocks(&sound, &[4, 1, 4, 1]);
    let mut left = Sheet { placement: vec![], ..sheet(7) };
    left.holdings.drain(..15);
    left.holdings.extend(left.holdings.clone());
    left.claims.extend(left.claims.clone());
    assert_made(&twice, Ok((left.to_file().expect("a file"), vec![])));
}

#[test]
fn each_block_is_listed_with_the_first_number_that_applies() {
    let mut damaged = file(7);
    set(&mut damaged, 0, 496, 8); // of another account, and the first that is kept
    set(&mut damaged, 1, RECORDS_AT + 2, 3); // a side that is none, of account 7: 4 before 20
    set(&mut damaged, 2, 10, 1); // out of form, and of account 7: 3 before 20
    damaged[3 * BLOCK_BYTES + 16] ^= 1; // 2 before 20
    let kept = Sheet { account: 8, placement: vec![], claims: vec![], ..sheet(8) };
    let kept = Sheet { holdings: kept.holdings[..15].to_vec(), ..kept }.to_file().expect("a file");
    assert_made(&damaged, Ok((kept.clone(), vec![(1, 4), (2, 3), (3, 2), (4, 20)])));
    // With a torn end behind it.
    damaged.extend_from_slice(&file(8)[..17]);
    assert_made(&damaged, Ok((kept, vec![(1, 4), (2, 3), (3, 2), (4, 20), (5, 1)])));
}

#[test]
fn form_and_account_are_the_first_kept_blocks() {
    let [old, seven, eight] = [file(0), file(7), file(8)];
    let mixed = [blocks(&old, &[0]), blocks(&seven, &[1]), blocks(&eight, &[2]), blocks(&old, &[4])].concat();
    let of_old = Sheet { holdings: sheet(0).holdings[..15].to_vec(), placement: vec![], ..sheet(0) };
    assert_made(&mixed, Ok((of_old.to_file().expect("a file"), vec![(1, 20), (2, 20)])));
    // Without the old block at the head account 7 is the first.
    let of_seven = Sheet { holdings: sheet(7).holdings[15..].to_vec(), ..Sheet::default() };
    let of_seven = Sheet { account: 7, ..of_seven }.to_file().expect("a file");
    assert_made(&mixed[BLOCK_BYTES..], Ok((of_seven.clone(), vec![(1, 20), (2, 20)])));
    // A block with the account zero is never the first.
    let mut zero = mixed[BLOCK_BYTES..].to_vec();
    zero.splice(0..0, blocks(&seven, &[0]));
    set(&mut zero, 0, 496, 0);
    assert_eq!(account_of(&zero), 0);
    assert_made(&zero, Ok((of_seven, vec![(0, 20), (2, 20), (3, 20)])));
    // An account in the old form is a fault of the form.
    let mut marked = old.clone();
    set(&mut marked, 4, 496, 7);
    let unclaimed = Sheet { claims: vec![], ..sheet(0) }.to_file().expect("a file");
    assert_made(&marked, Ok((unclaimed, vec![(4, 3)])));
}

#[test]
fn sizes_and_nothing_kept() {
    assert_made(&[], refusal(1, 0, 0));
    assert_made(&[0; LONGEST_FILE + 1], refusal(1, 0, 0));
    for length in [1, 511, 512, 700, LONGEST_FILE] {
        assert_made(&vec![0; length], refusal(2, 0, 0));
    }
    assert_made(&file(7)[..511], refusal(2, 0, 0));
    // No account at all.
    let mut zero = file(7);
    (0..5).for_each(|block| set(&mut zero, block, 496, 0));
    assert_made(&zero, refusal(2, 0, 0));
}

#[test]
fn records_past_a_limit_are_3() {
    let held = in_group(0, leg("L50p"));
    let full = Sheet { holdings: vec![held; 256], ..Sheet::default() }.to_file().expect("a file");
    let one = Sheet { holdings: vec![held], ..Sheet::default() }.to_file().expect("a file");
    let passed = [&full[..], &one].concat();
    assert_made(&passed, refusal(3, 0, 0));
    // It is no fault of the last block: whichever goes, the others are kept.
    let mut damaged = passed.clone();
    damaged[20] ^= 1;
    let left = Sheet { holdings: vec![held; 242], ..Sheet::default() }.to_file().expect("a file");
    assert_made(&damaged, Ok((left, vec![(0, 2)])));
}

#[test]
fn room_is_asked_for_the_file_first_and_then_for_the_list() {
    let mut damaged = file(0);
    damaged[20] ^= 1;
    let torn = &damaged[..4 * BLOCK_BYTES + 9];
    for (rooms, expected) in [
        ([1_535, 0, 0], Err(Refusal::new(17, 0, 1_536))),
        ([1_536, 1, 2], Err(Refusal::new(17, 0, 2))),
        ([1_536, 2, 1], Err(Refusal::new(17, 0, 2))),
        ([1_536, 2, 2], Ok((1_536, 2))),
    ] {
        for calls in &BOTH {
            let [room, indices, numbers] = rooms;
            let (mut out, mut indices, mut numbers) = (vec![7; room], vec![7; indices], vec![7; numbers]);
            let made = (calls.salvage)(torn, &mut out, &mut indices, &mut numbers);
            assert_eq!(made.map(|counts| (counts.bytes, counts.dropped)), expected, "{}", calls.name);
            if made.is_err() {
                assert!(out.iter().all(|byte| *byte == 7), "{}: nothing is written", calls.name);
                assert!(indices.iter().all(|index| *index == 7) && numbers.iter().all(|number| *number == 7));
            }
        }
    }
}

#[test]
fn what_was_dropped_has_names_in_rust() {
    let mut damaged = file(7);
    set(&mut damaged, 3, 4, 9);
    damaged[BLOCK_BYTES] ^= 1;
    damaged.truncate(4 * BLOCK_BYTES + 100);
    let dropped = [(1, Reason::ChecksDiffer), (3, Reason::BlockOutOfForm), (4, Reason::WrongSize)]
        .map(|(index, reason)| Dropped { index, reason });
    assert_eq!(salvage_file(&damaged).expect("two blocks").dropped, dropped);
    assert_eq!(salvage_file(&[]), refusal(1, 0, 0));
}
