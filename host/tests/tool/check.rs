//! `check`: one file, many files, and what cannot be read.

use std::fs;
use std::fs::OpenOptions;
use std::process::Stdio;

use usm_kit::accounts::{leg, placed};

use crate::{common, folder, run, told, VERTICAL};

/// A sheet file that is accepted, and one that is refused.
fn files() -> [Vec<u8>; 2] {
    [1_000_000, 999_999].map(|claim| placed(&[leg("L60c"), leg("S50c")], &[claim]).to_file().expect("a file"))
}

const SHORT: &str = "group 1 claims $999.999 (999999 mills); its margin is $1,000.000 (1000000 mills)";

#[test]
fn one_file_has_its_line_and_a_sentence() {
    let folder = folder("tool-check");
    let [good, short] = files();
    fs::write(folder.join("good.usm"), good).expect("a file");
    fs::write(folder.join("short.usm"), short).expect("a file");
    let sentence =
        "good.usm: no account (old form): accepted: 1 group, total margin $1,000.000 (1000000 mills)\n";
    assert_eq!(
        told(run(&folder, &["check", "good.usm"], b"")),
        (0, "ACCEPT 1 1000000\n".into(), sentence.into())
    );
    assert_eq!(
        told(run(&folder, &["check", "short.usm"], b"")),
        (1, "REFUSE 16 3 1\n".into(), format!("short.usm: no account (old form): refused: {SHORT}\n"))
    );
}

#[test]
fn the_work_is_told_where_it_is_asked_for() {
    let folder = folder("tool-work");
    let [good, short] = files();
    fs::write(folder.join("good.usm"), good).expect("a file");
    fs::write(folder.join("short.usm"), short).expect("a file");
    let sentence =
        "good.usm: no account (old form): accepted: 1 group, total margin $1,000.000 (1000000 mills)\n\
                    good.usm: 4 intrinsic values worked out\n";
    assert_eq!(
        told(run(&folder, &["check", "--work", "good.usm"], b"")),
        (0, "ACCEPT 1 1000000\n".into(), sentence.into())
    );
    let (status, lines, sentences) =
        told(run(&folder, &["check", "good.usm", "none.usm", "short.usm", "good.usm", "--work"], b""));
    assert_eq!(status, 2);
    let accepted = "good.usm: ACCEPT 1 1000000\n";
    assert_eq!(lines, format!("{accepted}short.usm: REFUSE 16 3 1\n{accepted}"));
    let sentences: Vec<&str> =
        sentences.lines().filter(|line| !line.starts_with("sheet: none.usm")).collect();
    let refused = format!("short.usm: no account (old form): refused: {SHORT}");
    let accepted =
        "good.usm: no account (old form): accepted: 1 group, total margin $1,000.000 (1000000 mills)";
    assert_eq!(
        sentences,
        [
            accepted,
            "good.usm: 4 intrinsic values worked out",
            refused.as_str(),
            "short.usm: 0 intrinsic values worked out",
            accepted,
            "good.usm: 4 intrinsic values worked out",
            "2 accepted, 1 refused, 1 not read; total margin of all accepted $2,000.000 (2000000 mills); \
             8 intrinsic values worked out",
        ]
    );
    // It is always among the keys of JSON.
    let [plain, asked] = [&["check", "--json", "good.usm"][..], &["check", "--json", "--work", "good.usm"]]
        .map(|arguments| told(run(&folder, arguments, b"")));
    assert_eq!(plain, asked);
    assert!(plain.1.contains("\"work\":4,"), "{}", plain.1);
}

#[test]
fn many_files_have_a_line_each_and_a_summary() {
    let folder = folder("tool-many");
    let [good, short] = files();
    let names: Vec<String> = (0..2_000).map(|number| format!("{number}.usm")).collect();
    for (number, name) in names.iter().enumerate() {
        fs::write(folder.join(name), if number % 1_000 == 7 { &short } else { &good }).expect("a file");
    }
    let mut arguments = vec!["check"];
    arguments.extend(names.iter().map(String::as_str));
    let (status, lines, sentences) = told(run(&folder, &arguments, b""));
    assert_eq!(status, 1);
    assert_eq!(lines.lines().count(), 2_000);
    assert_eq!(lines.lines().nth(6), Some("6.usm: ACCEPT 1 1000000"));
    assert_eq!(lines.lines().nth(1_007), Some("1007.usm: REFUSE 16 3 1"));
    assert_eq!(sentences.lines().count(), 2_001);
    let accepted = "6.usm: no account (old form): accepted: 1 group, total margin $1,000.000 (1000000 mills)";
    assert_eq!(sentences.lines().nth(6), Some(accepted));
    let summary = "1,998 accepted, 2 refused; total margin of all accepted $1,998,000.000 (1998000000 mills)";
    assert_eq!(sentences.lines().last(), Some(summary));
    // Of those that are accepted nothing but their number is told.
    arguments.push("--quiet");
    let (status, lines, sentences) = told(run(&folder, &arguments, b""));
    assert_eq!((status, lines.as_str()), (1, "7.usm: REFUSE 16 3 1\n1007.usm: REFUSE 16 3 1\n"));
    let refused = |name: &str| format!("{name}: no account (old form): refused: {SHORT}\n");
    assert_eq!(sentences, format!("{}{}{summary}\n", refused("7.usm"), refused("1007.usm")));
}

#[test]
fn what_cannot_be_read_is_2_and_the_others_are_checked() {
    let folder = folder("tool-unread");
    let [good, _] = files();
    fs::write(folder.join("good.usm"), good).expect("a file");
    fs::create_dir(folder.join("dir.usm")).expect("a folder");
    let (status, lines, sentences) = told(run(&folder, &["check", "none.usm", "dir.usm", "good.usm"], b""));
    assert_eq!((status, lines.as_str()), (2, "good.usm: ACCEPT 1 1000000\n"));
    let sentences: Vec<&str> = sentences.lines().collect();
    assert!(sentences[0].starts_with("sheet: none.usm: cannot be read: "), "{sentences:?}");
    assert_eq!(sentences[1], "sheet: dir.usm: is a folder without a file whose name ends in .usm");
    let summary =
        "1 accepted, 0 refused, 2 not read; total margin of all accepted $1,000.000 (1000000 mills)";
    assert_eq!(sentences[3..], [summary]);
    // As JSON both are told of on standard error, too.
    let (status, objects, sentences) =
        told(run(&folder, &["check", "--json", "none.usm", "dir.usm", "good.usm"], b""));
    assert_eq!((status, objects.lines().count()), (2, 3));
    let sentences: Vec<&str> = sentences.lines().collect();
    assert!(sentences[0].starts_with("sheet: none.usm: cannot be read: "), "{sentences:?}");
    assert_eq!(
        sentences[1..],
        ["sheet: dir.usm: is a folder without a file whose name ends in .usm", summary]
    );
    let (status, objects, sentence) = told(run(&folder, &["check", "--json", "none.usm"], b""));
    assert_eq!((status, objects.lines().count(), sentence.lines().count()), (2, 1, 1));
}

#[test]
fn standard_input_is_read_up_to_one_byte_too_many() {
    let folder = folder("tool-input");
    for length in [0, 511, 39 * 512 + 1, 1 << 20] {
        let (status, line, _) = told(run(&folder, &["check", "-"], &vec![0; length]));
        assert_eq!((status, line.as_str()), (1, "REFUSE 1 0 0\n"), "{length} bytes");
    }
    let (status, line, _) = told(run(&folder, &["check", "-"], &[0; 512]));
    assert_eq!((status, line.as_str()), (1, "REFUSE 3 0 0\n"));
}

#[test]
fn a_text_is_told_to_be_made_first() {
    let folder = folder("tool-text");
    // Of just a block's length the text would be refusal 3, or 2.
    let of_a_block = format!("{VERTICAL}{}", "#".repeat(512 - VERTICAL.len()));
    for (text, line) in [(VERTICAL, "REFUSE 1 0 0\n"), (&of_a_block, "REFUSE 2 0 0\n")] {
        let told = told(run(&folder, &["check", "-"], text.as_bytes()));
        let sentence = "-: refused: this is the text of a sheet and not yet a sheet file: \
                        first make one of it, `sheet make TEXT OUT`\n";
        assert_eq!(told, (1, line.into(), sentence.into()));
    }
}

#[test]
fn a_line_that_is_not_written_is_noticed() {
    let folder = folder("tool-full");
    let [good, _] = files();
    fs::write(folder.join("good.usm"), good).expect("a file");
    for command in [&["check", "good.usm"][..], &["show", "good.usm"], &["margins", "good.usm"], &["help"]] {
        let full = OpenOptions::new().write(true).open("/dev/full").expect("a device that is full");
        let output = common::program(env!("CARGO_BIN_EXE_usm_sheet"))
            .args(command)
            .current_dir(&folder)
            .stdout(Stdio::from(full))
            .output()
            .expect("the tool runs");
        assert_eq!(output.status.code(), Some(2), "{command:?}");
        let message = String::from_utf8_lossy(&output.stderr).into_owned();
        assert!(message.starts_with("sheet: standard output: "), "{command:?}: {message}");
    }
}
