//! `salvage`: a damaged file, and the sound one that is made of it.

use std::fs;

use usm::{Leg, Sheet};
use usm_kit::accounts::{leg, placed};
use usm_kit::block::{seal, BLOCK_BYTES};

use crate::{folder, names_in, run, told};

/// 20 holdings in blocks 0 and 1, 20 placed legs in 2 and 3, one claim in 4; it is accepted.
fn sheet() -> Sheet {
    let pair = [leg("L60c"), leg("S50c")];
    let legs: Vec<Leg> = pair.iter().cycle().take(20).copied().collect();
    Sheet { account: 4711, ..placed(&legs, &[10_000_000]) }
}

fn file() -> Vec<u8> {
    sheet().to_file().expect("a file")
}

/// Standard error of a salvage that ends so, and what it wrote; `name` is the test's own.
fn salvaged(name: &str, bytes: &[u8], status: i32) -> (Vec<u8>, String) {
    let output = run(&folder(name), &["salvage", "-", "-"], bytes);
    assert_eq!(output.status.code(), Some(status));
    (output.stdout, String::from_utf8(output.stderr).expect("UTF-8"))
}

#[test]
fn one_bad_block_is_told_and_the_rest_is_written() {
    let folder = folder("tool-salvage");
    let mut damaged = file();
    damaged[3 * BLOCK_BYTES + 20] ^= 1;
    fs::write(folder.join("bad.usm"), damaged).expect("a file");
    let sentences = "\
bad.usm: the 4th of 5 blocks was dropped: its check sums differ (2)
bad.usm: left out: 5 records of the placement
bad.usm: 1 of 5 blocks dropped, 4 kept
out.usm: a salvaged sheet is not accepted by that; its verdict: REFUSE 11 2 1
out.usm: account 4711 (new form): refused: group 1 has 800 long call units and 700 short call units; they must be equal (a leg's units are its contracts times its unit size)
";
    let made = told(run(&folder, &["salvage", "bad.usm", "out.usm"], b""));
    assert_eq!(made, (1, String::new(), sentences.into()));
    let mut left = sheet();
    left.placement.truncate(15);
    assert_eq!(fs::read(folder.join("out.usm")).expect("written"), left.to_file().expect("a file"));
    // What is there stays, unless forced.
    let kept = "sheet: out.usm: is there already; --force overwrites it\n";
    assert_eq!(told(run(&folder, &["salvage", "bad.usm", "out.usm"], b"")), (2, String::new(), kept.into()));
    assert_eq!(told(run(&folder, &["salvage", "bad.usm", "out.usm", "--force"], b"")).0, 1);
    assert_eq!(names_in(&folder), ["bad.usm", "out.usm"]);
}

#[test]
fn a_file_that_lost_nothing_is_0() {
    let accepted = "-: a salvaged sheet is not accepted by that; its verdict: ACCEPT 1 10000000\n\
                    -: account 4711 (new form): accepted: 1 group, total margin $10,000.000 (10000000 mills)\n";
    let as_it_was = format!("-: nothing was dropped; the file comes out as it was\n{accepted}");
    assert_eq!(salvaged("tool-salvage-whole", &file(), 0), (file(), as_it_was));
    // Claims at the head, as a tool may have put them.
    let mut turned = file();
    turned.rotate_right(BLOCK_BYTES);
    let anew = format!("-: nothing was dropped; its blocks stand and are numbered anew\n{accepted}");
    assert_eq!(salvaged("tool-salvage-turned", &turned, 0), (file(), anew));
}

#[test]
fn every_reason_is_told_and_what_is_left_out_is_counted() {
    let mut damaged = file();
    let other = Sheet { account: 9, ..sheet() }.to_file().expect("a file");
    damaged[BLOCK_BYTES + 5] = 9; // sums that differ, and a header that does not fit what is behind it
    damaged[2 * BLOCK_BYTES + 4] = 8;
    seal(&mut damaged[2 * BLOCK_BYTES..3 * BLOCK_BYTES]);
    damaged[3 * BLOCK_BYTES + 16 + 32 + 2] = 3;
    seal(&mut damaged[3 * BLOCK_BYTES..4 * BLOCK_BYTES]);
    damaged.extend_from_slice(&other[4 * BLOCK_BYTES..]);
    damaged.extend_from_slice(&file()[..100]);
    let leg = "group 1 side 3 1 call 60.000 2011-05-21 unit 100 underlying 7 american listed";
    let expected = format!(
        "\
-: the 2nd of 7 blocks was dropped: its check sums differ (2)
-: the 3rd of 7 blocks was dropped: it is out of form: its kind is 8, not 1 (holdings), 2 (placement) or 3 (claims) (3)
-: the 4th of 7 blocks was dropped: its 2nd record (`{leg}`): its side is 3 and must be 1 (long) or 2 (short) (4)
-: the 6th of 7 blocks was dropped: it is of account 9, and the first block that was kept of account 4711: two accounts are joined (20)
-: the 7th of 7 blocks was dropped: it is torn, with 100 bytes of 512 (1)
-: left out: 15 records of the holdings, 5 records of the placement, 1 claim, what 2 blocks held whose headers do not tell
-: 5 of 7 blocks dropped, 2 kept
"
    );
    let (out, sentences) = salvaged("tool-salvage-damaged", &damaged, 1);
    assert!(sentences.starts_with(&expected), "{sentences}");
    let left = Sheet { holdings: sheet().holdings[..15].to_vec(), placement: vec![], ..sheet() };
    assert_eq!(out, left.to_file().expect("a file"));
}

#[test]
fn what_cannot_be_salvaged_writes_nothing() {
    let folder = folder("tool-salvage-wrong");
    let mut damaged = file();
    damaged.chunks_mut(BLOCK_BYTES).for_each(|block| block[20] ^= 1);
    let claims = Sheet { holdings: vec![], placement: vec![], ..sheet() }.to_file().expect("a file");
    for (name, bytes) in [
        ("empty", vec![]),
        ("long", vec![0; 20_000]),
        ("bad", damaged),
        ("scrap", file()[..100].to_vec()),
        ("zeros", vec![0; 100]),
        ("text", b"holdings\n".to_vec()),
        ("copies", claims.repeat(33)),
    ] {
        fs::write(folder.join(name), bytes).expect("a file");
    }
    for (name, message) in [
        ("empty", "refusal 1: the file is empty; a sheet file has 1 to 39 blocks of 512 bytes"),
        ("long", "refusal 1: this is no sheet file, which begins with the mark `USM1` or `USM2`; it has nothing but zero bytes"),
        ("bad", "refusal 2: nothing can be kept: all 5 blocks are damaged, torn, out of form, or have a field out of range or no account"),
        ("scrap", "refusal 2: nothing can be kept: the file has 100 bytes, less than one block of 512"),
        ("zeros", "refusal 2: this is no sheet file, which begins with the mark `USM1` or `USM2`; it has nothing but zero bytes"),
        ("text", "refusal 2: this is the text of a sheet and not yet a sheet file: first make one of it, `sheet make TEXT OUT`"),
        ("copies", "refusal 3: the blocks that can be kept have 33 claims, more than 32; blocks of two files may be joined, or one may stand there twice"),
    ] {
        let made = told(run(&folder, &["salvage", name, "out.usm"], b""));
        assert_eq!(made, (2, String::new(), format!("sheet: {name}: {message}\n")));
    }
    let same = "sheet: bad: cannot be written over itself; name another file for OUT\n";
    assert_eq!(told(run(&folder, &["salvage", "bad", "./bad"], b"")), (2, String::new(), same.into()));
    let (status, _, message) = told(run(&folder, &["salvage", "none.usm", "out.usm"], b""));
    assert!(status == 2 && message.starts_with("sheet: none.usm: cannot be read"), "{message}");
    assert_eq!(names_in(&folder), ["bad", "copies", "empty", "long", "scrap", "text", "zeros"]);
}
