//! The new form of a file, with an account in each block, and the moves between the forms (document 02, [6]).

use usm::{Form, Leg, Origin, RecordCounts, Refusal, Sheet, Tables, LONGEST_FILE};
use usm_kit::accounts::{leg, placed};
use usm_kit::block::{seal, BLOCK_BYTES};
use usm_kit::both::{Calls, BOTH};

use crate::refusal;

const ACCOUNT: u64 = 0x0807_0605_0403_0201;

/// 20 holdings in blocks 0 and 1, 20 placed legs in 2 and 3, one claim in 4.
fn sheet() -> Sheet {
    let pair = [leg("L60c"), leg("S50c")];
    let legs: Vec<Leg> = pair.iter().cycle().take(20).copied().collect();
    placed(&legs, &[10_000_000])
}

/// The sheet's file by one implementation.
fn file_of(calls: &Calls, origin: Origin) -> Vec<u8> {
    let Tables { holdings, placement, claims } = sheet().tables();
    let mut file = vec![0; LONGEST_FILE];
    let length = (calls.write_file)(&holdings, &placement, &claims, origin, &mut file).expect("a file");
    file.truncate(length);
    file
}

/// Bytes of one block set, with its checks to match.
fn change(file: &mut [u8], block: usize, at: usize, bytes: &[u8]) {
    let block = &mut file[block * BLOCK_BYTES..(block + 1) * BLOCK_BYTES];
    block[at..at + bytes.len()].copy_from_slice(bytes);
    seal(block);
}

type Change = fn(&mut Vec<u8>);

/// A file of the sheet, changed so, prints this line, by library and model.
#[track_caller]
fn assert_line(origin: Origin, changed: Change, line: &str) {
    for calls in &BOTH {
        let mut file = file_of(calls, origin);
        changed(&mut file);
        assert_eq!((calls.file_line)(&file), format!("{line}\n"), "{}", calls.name);
    }
}

#[test]
fn the_forms_differ_in_mark_and_account_only() {
    for calls in &BOTH {
        let (old, new) = (file_of(calls, Origin::OLD), file_of(calls, Origin::new(ACCOUNT)));
        assert_eq!((old.len(), new.len()), (5 * BLOCK_BYTES, 5 * BLOCK_BYTES));
        for (old, new) in old.chunks_exact(BLOCK_BYTES).zip(new.chunks_exact(BLOCK_BYTES)) {
            assert_eq!((&old[..4], &new[..4]), (&b"USM1"[..], &b"USM2"[..]), "{}", calls.name);
            assert_eq!(old[4..496], new[4..496], "{}", calls.name);
            assert_eq!((old[496..504].to_vec(), new[496..504].to_vec()), (vec![0; 8], (1..=8).collect()));
            assert_eq!((&old[504..508], &new[504..508]), (&[0; 4][..], &[0; 4][..]), "{}", calls.name);
            let mut sealed = new.to_vec();
            seal(&mut sealed);
            assert_eq!(sealed, new, "{}: the checks are over the account, too", calls.name);
        }
    }
}

#[test]
fn both_forms_are_read_and_the_reader_tells_which() {
    for calls in &BOTH {
        for origin in [Origin::OLD, Origin::new(1), Origin::new(ACCOUNT), Origin::new(u64::MAX)] {
            let file = file_of(calls, origin);
            let [mut holdings, mut placement, mut claims] = [vec![0; 640], vec![0; 640], vec![0; 32]];
            let read = (calls.read_file)(&file, &mut holdings, &mut placement, &mut claims);
            let counts = RecordCounts { holdings: 20, placement: 20, claims: 1 };
            assert_eq!(read, Ok((counts, origin)), "{}", calls.name);
            let Tables { holdings: held, placement: placed, claims: claimed } = sheet().tables();
            assert_eq!((holdings, placement, claims), (held, placed, claimed), "{}", calls.name);
            assert_eq!((calls.file_line)(&file), "ACCEPT 1 10000000\n", "{}", calls.name);
            let table = "GROUP 1 10000000\n50000 0\n60000 -10000000\n";
            assert_eq!((calls.file_table)(&file), table, "{}", calls.name);
        }
        // The writer of the old form does not look at the account.
        let said = Origin { form: Form::Old, account: ACCOUNT };
        assert_eq!(file_of(calls, said), file_of(calls, Origin::OLD), "{}", calls.name);
    }
}

#[test]
fn a_block_of_another_form_than_the_first_is_3() {
    let new = Origin::new(ACCOUNT);
    assert_line(new, |file| change(file, 3, 0, b"USM1"), "REFUSE 3 0 3");
    assert_line(Origin::OLD, |file| change(file, 3, 0, b"USM2"), "REFUSE 3 0 3");
    // With its account, too; and the first block alone makes the second the other one.
    assert_line(
        Origin::OLD,
        |file| {
            change(file, 3, 0, b"USM2");
            change(file, 3, 496, &[1]);
        },
        "REFUSE 3 0 3",
    );
    assert_line(new, |file| change(file, 0, 0, b"USM1"), "REFUSE 3 0 0"); // its account is no zero
    assert_line(Origin::OLD, |file| change(file, 0, 0, b"USM2"), "REFUSE 20 0 0");
    // A first block with neither mark is out of form itself.
    assert_line(new, |file| change(file, 0, 0, b"USM3"), "REFUSE 3 0 0");
    assert_line(new, |file| change(file, 1, 0, b"USM3"), "REFUSE 3 0 1");
}

#[test]
fn an_account_of_zero_or_another_one_is_20() {
    let new = Origin::new(ACCOUNT);
    assert_line(new, |file| change(file, 0, 496, &[0; 8]), "REFUSE 20 0 0");
    assert_line(new, |file| change(file, 4, 496, &[0; 8]), "REFUSE 20 0 4");
    assert_line(new, |file| change(file, 2, 496, &[2]), "REFUSE 20 0 2");
    assert_line(new, |file| change(file, 2, 503, &[9]), "REFUSE 20 0 2");
    // It is the first block's account that counts, not the one before.
    assert_line(new, |file| (1..=4).for_each(|block| change(file, block, 496, &[7])), "REFUSE 20 0 1");
    assert_line(new, |file| (0..=4).for_each(|block| change(file, block, 496, &[0; 8])), "REFUSE 20 0 0");
    assert_line(new, |file| (0..=4).for_each(|block| change(file, block, 496, &[7])), "ACCEPT 1 10000000");
}

#[test]
fn twenty_comes_after_3_in_each_block_and_before_4() {
    let new = Origin::new(ACCOUNT);
    // Another account, and a number out of order, in one block.
    assert_line(
        new,
        |file| {
            change(file, 2, 496, &[7]);
            change(file, 2, 6, &[9]);
        },
        "REFUSE 3 0 2",
    );
    // Order between blocks is a 3 of its block as well.
    assert_line(
        new,
        |file| {
            change(file, 2, 496, &[7]);
            change(file, 2, 4, &[1]);
        },
        "REFUSE 3 0 2",
    );
    // An earlier block's 20 comes before a later block's 2 and 3.
    assert_line(
        new,
        |file| {
            change(file, 1, 496, &[7]);
            change(file, 2, 6, &[9]);
            file[3 * BLOCK_BYTES + 20] ^= 1;
        },
        "REFUSE 20 0 1",
    );
    // A later block's 20 before every 4.
    assert_line(
        new,
        |file| {
            change(file, 0, 18, &[3]);
            change(file, 4, 496, &[7]);
        },
        "REFUSE 20 0 4",
    );
}

#[test]
fn what_is_no_account_is_3() {
    // In the old form the account's bytes are zero; in the new one only those behind it.
    for at in [496, 503, 504, 507] {
        for calls in &BOTH {
            for (origin, line) in [
                (Origin::OLD, "REFUSE 3 0 1\n"),
                (Origin::new(ACCOUNT), if at < 504 { "REFUSE 20 0 1\n" } else { "REFUSE 3 0 1\n" }),
            ] {
                let mut file = file_of(calls, origin);
                change(&mut file, 1, at, &[0xFF]);
                assert_eq!((calls.file_line)(&file), line, "{}: byte {at}", calls.name);
            }
        }
    }
    // The unused places of a new block are zero, up to the account.
    assert_line(Origin::new(ACCOUNT), |file| change(file, 4, 495, &[1]), "REFUSE 3 0 4");
}

#[test]
fn the_writer_refuses_a_zero_account_between_1_and_4() {
    let Tables { holdings, placement, claims } = sheet().tables();
    let mut bad = holdings.clone();
    bad[2] = 9;
    for calls in &BOTH {
        let write = |holdings: &[u8], origin, room: usize| {
            (calls.write_file)(holdings, &placement, &claims, origin, &mut vec![0; room])
        };
        let zero = Origin::new(0);
        assert_eq!(write(&holdings, zero, 9_999), refusal(20, 0, 0), "{}", calls.name);
        assert_eq!(write(&bad, zero, 9_999), refusal(20, 0, 0), "{}", calls.name);
        assert_eq!(write(&holdings[1..], zero, 9_999), refusal(1, 0, 0), "{}", calls.name);
        assert_eq!(write(&bad, Origin::new(1), 0), refusal(4, 1, 0), "{}", calls.name);
        assert_eq!(write(&holdings, Origin::new(1), 2_559), refusal(17, 0, 2_560), "{}", calls.name);
        assert_eq!(
            (calls.write_file)(&[], &[], &[], zero, &mut [0; 512]),
            refusal(1, 0, 0),
            "{}",
            calls.name
        );
    }
}

/// A file moved by one implementation, into a buffer that is larger.
fn moved(calls: &Calls, file: &[u8], to: Origin) -> Result<Vec<u8>, Refusal> {
    let mut out = vec![0xA5; file.len() + 40];
    let length = match to.form {
        Form::New => (calls.move_to_new)(file, to.account, &mut out),
        Form::Old => (calls.move_to_old)(file, &mut out),
    }?;
    assert!(out[length..].iter().all(|byte| *byte == 0xA5), "{}: what lies past the file stays", calls.name);
    out.truncate(length);
    Ok(out)
}

#[test]
fn a_file_moved_there_and_back_is_the_same() {
    for calls in &BOTH {
        let (old, new) = (file_of(calls, Origin::OLD), file_of(calls, Origin::new(ACCOUNT)));
        assert_eq!(moved(calls, &old, Origin::new(ACCOUNT)), Ok(new.clone()), "{}", calls.name);
        assert_eq!(moved(calls, &new, Origin::OLD), Ok(old), "{}", calls.name);
    }
}

#[test]
fn a_move_is_refused_in_order() {
    for calls in &BOTH {
        let (old, new) = (file_of(calls, Origin::OLD), file_of(calls, Origin::new(ACCOUNT)));
        let to_new = |file: &[u8], account| moved(calls, file, Origin::new(account));
        let to_old = |file: &[u8]| moved(calls, file, Origin::OLD);
        let name = calls.name;
        // 1, then a zero number, before any block is looked at.
        assert_eq!(to_new(&old[1..], 0), refusal(1, 0, 0), "{name}");
        let mut damaged = old.clone();
        damaged[600] ^= 1;
        assert_eq!(to_new(&damaged, 0), refusal(20, 0, 0), "{name}");
        assert_eq!(to_new(&new, 0), refusal(20, 0, 0), "{name}");
        // The reader's refusals, 4 among them, before the wrong starting form.
        assert_eq!(to_new(&damaged, 7), refusal(2, 0, 1), "{name}");
        let mut other = new.clone();
        change(&mut other, 3, 496, &[7]);
        assert_eq!(to_new(&other, 7), refusal(20, 0, 3), "{name}");
        assert_eq!(to_old(&other), refusal(20, 0, 3), "{name}");
        let mut bad_field = new.clone();
        change(&mut bad_field, 1, 18, &[3]);
        assert_eq!(to_new(&bad_field, 7), refusal(4, 1, 15), "{name}");
        // The wrong starting form, then 17.
        assert_eq!(to_new(&new, ACCOUNT), refusal(3, 0, 0), "{name}");
        assert_eq!(to_old(&old), refusal(3, 0, 0), "{name}");
        assert_eq!((calls.move_to_new)(&new, 7, &mut []), refusal(3, 0, 0), "{name}");
        assert_eq!((calls.move_to_new)(&old, 7, &mut vec![0; 2_559]), refusal(17, 0, 2_560), "{name}");
        assert_eq!((calls.move_to_old)(&new, &mut vec![0; 2_559]), refusal(17, 0, 2_560), "{name}");
    }
}
