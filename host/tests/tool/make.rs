//! `make` and `show`.

use std::ffi::OsStr;
use std::fs;
use std::os::unix::ffi::OsStrExt;
use std::os::unix::fs::symlink;
use std::process::Command;

use crate::{answer, common, folder, names_in, run, run_named, told, VERTICAL};

#[test]
fn make_and_show_go_round() {
    let folder = folder("tool-round");
    fs::write(folder.join("p1.txt"), VERTICAL).expect("a text");
    assert_eq!(told(run(&folder, &["make", "p1.txt", "p1.usm"], b"")), (0, String::new(), String::new()));
    assert_eq!(names_in(&folder), ["p1.txt", "p1.usm"]);
    let (status, shown, errors) = told(run(&folder, &["show", "p1.usm"], b""));
    assert_eq!((status, errors.as_str()), (0, ""));
    assert!(
        shown.contains("group 1   short 1 call 50.000 2011-05-21 unit 100 underlying 7 american listed\n"),
        "{shown}"
    );
    let again = run(&folder, &["make", "-", "-"], shown.as_bytes());
    assert_eq!(again.stdout, fs::read(folder.join("p1.usm")).expect("the file made"));
    let marked = run(&folder, &["make", "-", "-"], &["\u{FEFF}".as_bytes(), shown.as_bytes()].concat());
    assert_eq!(marked.stdout, again.stdout);
}

#[test]
fn an_existing_file_stays_unless_forced() {
    let folder = folder("tool-force");
    fs::write(folder.join("p1.txt"), VERTICAL).expect("a text");
    fs::write(folder.join("out.usm"), "mine").expect("a file");
    let kept = "sheet: out.usm: is there already; --force overwrites it\n";
    assert_eq!(told(run(&folder, &["make", "p1.txt", "out.usm"], b"")), (2, String::new(), kept.into()));
    assert_eq!(fs::read(folder.join("out.usm")).expect("kept"), b"mine");
    assert_eq!(told(run(&folder, &["make", "p1.txt", "out.usm", "--force"], b"")).0, 0);
    assert_eq!(fs::read(folder.join("out.usm")).expect("made").len(), 3 * 512);
    assert_eq!(names_in(&folder), ["out.usm", "p1.txt"]);
}

#[test]
fn a_write_that_fails_loses_nothing() {
    let folder = folder("tool-lost");
    fs::create_dir(folder.join("out")).expect("a folder");
    fs::write(folder.join("p1.txt"), VERTICAL).expect("a text");
    for out in ["out", "none/out.usm"] {
        let (status, _, message) = told(run(&folder, &["make", "p1.txt", out, "--force"], b""));
        assert_eq!(status, 2);
        assert!(message.starts_with(&format!("sheet: {out}: cannot be written: ")), "{message}");
    }
    // The text itself is no place for the file that is made of it.
    let (status, _, message) = told(run(&folder, &["make", "p1.txt", "./p1.txt", "--force"], b""));
    assert_eq!(
        (status, message.as_str()),
        (2, "sheet: p1.txt: cannot be written over itself; name another file for OUT\n")
    );
    assert_eq!(fs::read(folder.join("p1.txt")).expect("kept"), VERTICAL.as_bytes());
    assert_eq!(names_in(&folder), ["out", "p1.txt"]);
}

#[test]
fn a_disk_that_is_full_loses_nothing() {
    let folder = folder("tool-disk");
    fs::write(folder.join("p1.txt"), VERTICAL).expect("a text");
    fs::write(folder.join("out.usm"), "mine").expect("a file");
    // No file may grow past a block or two of 512 bytes; the sheet file has three.
    let mut limited = Command::new("sh");
    limited.args(["-c", "trap '' XFSZ; ulimit -f 1; exec \"$@\"", "sh"]);
    let tool = common::program(env!("CARGO_BIN_EXE_usm_sheet"));
    limited.arg(tool.get_program()).args(tool.get_args());
    limited.args(["make", "p1.txt", "out.usm", "--force"]).current_dir(&folder);
    let (status, _, message) = told(answer(limited, b""));
    assert_eq!(status, 2, "{message}");
    assert!(message.starts_with("sheet: out.usm: cannot be written: "), "{message}");
    assert_eq!(fs::read(folder.join("out.usm")).expect("kept"), b"mine");
    assert_eq!(names_in(&folder), ["out.usm", "p1.txt"]);
}

#[test]
fn a_link_stays_and_what_it_leads_to_is_replaced() {
    let folder = folder("tool-link");
    fs::write(folder.join("real.usm"), "mine").expect("a file");
    symlink("real.usm", folder.join("out.usm")).expect("a link");
    assert_eq!(told(run(&folder, &["make", "-", "out.usm", "--force"], VERTICAL.as_bytes())).0, 0);
    assert!(fs::symlink_metadata(folder.join("out.usm")).expect("a link").file_type().is_symlink());
    assert_eq!(fs::read(folder.join("real.usm")).expect("made").len(), 3 * 512);
    // A device takes the bytes and stays what it is.
    assert_eq!(told(run(&folder, &["make", "-", "/dev/null", "--force"], VERTICAL.as_bytes())).0, 0);
    assert!(!fs::metadata("/dev/null").expect("a device").is_file());
}

#[test]
fn a_file_of_another_kind_is_told_as_the_check_tells_it() {
    let folder = folder("tool-other-kind");
    for (bytes, kind) in [
        (&b"\x1F\x8B\x08\x00"[..], "a file packed by gzip, which has to be unpacked first (`gunzip`)"),
        (b"%PDF-1.4\nholdings\n", "a PDF document"),
        (b"\xFF\xFEh\x00", "text in UTF-16, which has to be saved as UTF-8"),
    ] {
        fs::write(folder.join("other"), bytes).expect("a file");
        let message = format!("sheet: other: expected text in UTF-8, and this looks like {kind}\n");
        for words in [&["make", "other", "out.usm"][..], &["play", "other", "-", "out.txt"]] {
            assert_eq!(told(run(&folder, words, b"fills\n")), (2, String::new(), message.clone()));
        }
        let (status, _, sentence) = told(run(&folder, &["check", "other"], b""));
        assert_eq!(
            (status, sentence.ends_with(&format!("; it looks like {kind}\n"))),
            (1, true),
            "{sentence}"
        );
    }
    assert_eq!(names_in(&folder), ["other"]);
}

#[test]
fn bad_text_is_told_with_file_line_and_column_and_makes_nothing() {
    let folder = folder("tool-bad");
    fs::write(folder.join("bad.txt"), VERTICAL.replace("group 1 short 1 call", "group 1 short 1 cal"))
        .expect("a text");
    let message = "sheet: bad.txt: line 7, column 19: expected `call` or `put`, found `cal`\n";
    assert_eq!(told(run(&folder, &["make", "bad.txt", "out.usm"], b"")), (2, String::new(), message.into()));
    let (status, _, message) = told(run(&folder, &["make", "-", "out.usm"], b"# a\n\xFF\n"));
    assert_eq!((status, message.as_str()), (2, "sheet: -: line 2: expected text in UTF-8\n"));
    let (status, _, message) = told(run(&folder, &["make", "-", "out.usm"], b"# nothing\n"));
    let empty = "sheet: -: there is no record in it, and an empty sheet has no file\n";
    assert_eq!((status, message.as_str()), (2, empty));
    assert_eq!(names_in(&folder), ["bad.txt"]);
}

#[test]
fn every_error_of_a_text_is_told() {
    let folder = folder("tool-errors");
    let text =
        VERTICAL.replace(" call 60 ", " call 60.0001 ").replace("claim 1 1000000", "claim 1 \u{1b}[2J");
    let strike =
        "expected a strike in dollars from 0.001 to 99999.999 with up to three decimals, found `60.0001`";
    let message = format!(
        "sheet: -: line 3, column 15: {strike}\n\
         sheet: -: line 6, column 23: {strike}\n\
         sheet: -: line 9, column 11: expected a margin in whole mills, 1000000 for 1,000 dollars, \
         from 0 to 2560000000000000000, or in dollars behind a `$`, as $1,000.000, found `\\u{{1b}}[2J`\n"
    );
    assert_eq!(told(run(&folder, &["make", "-", "out.usm"], text.as_bytes())), (2, String::new(), message));
    let text = format!("holdings\n{}", "short 1\n".repeat(50));
    let (status, _, message) = told(run(&folder, &["make", "-", "out.usm"], text.as_bytes()));
    assert_eq!((status, message.lines().count()), (2, 21));
    assert_eq!(message.lines().last(), Some("sheet: -: and 30 more errors"));
    assert!(names_in(&folder).is_empty());
}

#[test]
fn what_is_no_sheet_file_cannot_be_shown() {
    let folder = folder("tool-show");
    let (status, shown, message) = told(run(&folder, &["show", "-"], &[0; 512]));
    let mark = "sheet: -: refusal 3: this is no sheet file, which begins with the mark `USM1` or `USM2`; \
                it has nothing but zero bytes\n";
    assert_eq!((status, shown.as_str(), message.as_str()), (2, "", mark));
    let (status, _, message) = told(run(&folder, &["show", "missing.usm"], b""));
    assert_eq!(status, 2);
    assert!(message.starts_with("sheet: missing.usm: cannot be read: "), "{message}");
}

#[test]
fn a_sheet_file_is_told_to_be_shown() {
    let folder = folder("tool-make-file");
    for text in [VERTICAL, &format!("account 7\n{VERTICAL}")] {
        let file = run(&folder, &["make", "-", "-"], text.as_bytes()).stdout;
        let shown = "sheet: -: is a sheet file, and a text is expected; `sheet show FILE` prints its text\n";
        for arguments in [&["make", "-", "out"][..], &["play", "-", "fills", "out"]] {
            assert_eq!(told(run(&folder, arguments, &file)), (2, String::new(), shown.into()));
        }
    }
    assert!(names_in(&folder).is_empty());
}

#[test]
fn behind_two_dashes_every_word_is_a_name() {
    let folder = folder("tool-dashes");
    fs::write(folder.join("--force"), VERTICAL).expect("a text");
    fs::write(folder.join("--json"), "mine").expect("a file");
    let kept = "sheet: --json: is there already; --force overwrites it\n";
    assert_eq!(
        told(run(&folder, &["make", "--", "--force", "--json"], b"")),
        (2, String::new(), kept.into())
    );
    assert_eq!(
        told(run(&folder, &["make", "--", "--force", "--work"], b"")),
        (0, String::new(), String::new())
    );
    assert_eq!(names_in(&folder), ["--force", "--json", "--work"]);
    let (status, lines, _) = told(run(&folder, &["check", "--", "--work", "--work"], b""));
    assert_eq!((status, lines.as_str()), (0, "--work: ACCEPT 1 1000000\n--work: ACCEPT 1 1000000\n"));
    let again = told(run(&folder, &["--", "show", "--", "--work"], b""));
    assert_eq!(again.2, "sheet: usage: sheet show FILE [--holdings]\n", "only the first is no word");
}

#[test]
fn names_need_not_be_utf_8() {
    let folder = folder("tool-names");
    let (text, out) = (OsStr::from_bytes(b"\xff\n.txt"), OsStr::from_bytes(b"--\xfe.usm"));
    fs::write(folder.join(text), VERTICAL).expect("a text");
    assert_eq!(
        told(run_named(&folder, &["make".as_ref(), text, out], b"")),
        (0, String::new(), String::new())
    );
    let shown = run_named(&folder, &["show".as_ref(), "--".as_ref(), out], b"");
    assert_eq!(shown.status.code(), Some(0));
    let (status, _, message) = told(run_named(&folder, &["show".as_ref(), text], b""));
    assert_eq!(status, 2);
    assert!(message.starts_with("sheet: \\xff\\n.txt: refusal 1: this is the text of a sheet"), "{message}");
}
