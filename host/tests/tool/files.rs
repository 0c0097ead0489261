//! `check` of lists of names and of folders, and whose verdicts they are.

use std::ffi::OsStr;
use std::fs;
use std::os::unix::ffi::OsStrExt;
use std::os::unix::fs::symlink;
use std::path::{Path, PathBuf};
use std::process::Command;

use usm::Sheet;
use usm_kit::accounts::{leg, placed};
use usm_kit::block::BLOCK_BYTES;

use crate::{common, run, run_named, told};

/// A vertical of this account that claims so much.
fn file(account: u64, claim: i64) -> Vec<u8> {
    Sheet { account, ..placed(&[leg("L60c"), leg("S50c")], &[claim]) }.to_file().expect("a file")
}

/// A folder with two files that are accepted, one of them further in, one that is refused, and a text.
fn folder(name: &str) -> PathBuf {
    let folder = common::folder(name);
    fs::create_dir_all(folder.join("all/more")).expect("a folder");
    for (name, bytes) in [
        ("all/b.usm", file(0, 1_000_000)),
        ("all/c.usm", file(7, 1)),
        ("all/more/a.usm", file(u64::MAX, 1_000_000)),
        ("all/note.txt", b"no sheet".to_vec()),
    ] {
        fs::write(folder.join(name), bytes).expect("a file");
    }
    symlink("..", folder.join("all/more/up")).expect("a link");
    folder
}

const LINES: &str = "\
all/b.usm: ACCEPT 1 1000000
all/c.usm: REFUSE 16 3 1
all/more/a.usm: ACCEPT 1 1000000
";

const SENTENCES: &str = "\
all/b.usm: no account (old form): accepted: 1 group, total margin $1,000.000 (1000000 mills)
all/c.usm: account 7 (new form): refused: group 1 claims $0.001 (1 mills); its margin is $1,000.000 (1000000 mills)
all/more/a.usm: account 18446744073709551615 (new form): accepted: 1 group, total margin $1,000.000 (1000000 mills)
2 accepted, 1 refused; total margin of all accepted $2,000.000 (2000000 mills)
";

#[test]
fn a_folder_stands_for_the_sheet_files_in_it() {
    let folder = folder("tool-folder");
    assert_eq!(told(run(&folder, &["check", "all"], b"")), (1, LINES.into(), SENTENCES.into()));
    // One file of a folder is named all the same.
    let (status, lines, sentences) = told(run(&folder, &["check", "all/more"], b""));
    assert_eq!((status, lines.as_str()), (0, "all/more/a.usm: ACCEPT 1 1000000\n"));
    assert_eq!(sentences.lines().count(), 2);
}

#[test]
fn in_a_folder_the_ending_may_be_in_capitals() {
    let folder = common::folder("tool-folder-capitals");
    fs::create_dir(folder.join("all")).expect("a folder");
    for name in ["all/A.USM", "all/b.Usm", "all/c.usm.txt"] {
        fs::write(folder.join(name), file(0, 1_000_000)).expect("a file");
    }
    let (status, lines, _) = told(run(&folder, &["check", "all"], b""));
    let both = "all/A.USM: ACCEPT 1 1000000\nall/b.Usm: ACCEPT 1 1000000\n";
    assert_eq!((status, lines.as_str()), (0, both));
}

/// A pipe that nobody writes to would never end.
#[test]
fn in_a_folder_only_regular_files_are_read() {
    let folder = folder("tool-folder-pipe");
    let made = Command::new("mkfifo").arg(folder.join("all/pipe.usm")).status().expect("mkfifo runs");
    assert!(made.success());
    symlink("more", folder.join("all/link.usm")).expect("a link");
    symlink("b.usm", folder.join("all/to-b.usm")).expect("a link");
    let (status, lines, said) = told(run(&folder, &["check", "all"], b""));
    assert_eq!((status, lines), (2, format!("{LINES}all/to-b.usm: ACCEPT 1 1000000\n")));
    for name in ["all/link.usm", "all/pipe.usm"] {
        let unread = format!("sheet: {name}: is no regular file");
        assert_eq!(said.lines().filter(|line| *line == unread).count(), 1, "{said}");
    }
    assert!(said.contains("\n3 accepted, 1 refused, 2 not read; "), "{said}");
    // Two links lead around: a walk that follows both would not end.
    fs::remove_dir_all(folder.join("all")).expect("a folder of this test");
}

#[test]
fn a_list_names_files_by_lines_or_by_zero_bytes() {
    let folder = folder("tool-list");
    let names = ["all/b.usm", "all/c.usm", "all/more"];
    let expected = (1, String::from(LINES), String::from(SENTENCES));
    for list in [
        names.map(|name| format!("{name}\n")).concat(),
        names.join("\n"),
        names.join("\r\n\r\n"),
        names.map(|name| format!("{name}\0")).concat(),
    ] {
        assert_eq!(
            told(run(&folder, &["check", "--files-from", "-"], list.as_bytes())),
            expected,
            "{list:?}"
        );
        fs::write(folder.join("list"), &list).expect("a list");
        assert_eq!(told(run(&folder, &["check", "--files-from=list"], b"")), expected);
    }
    let both = told(run(&folder, &["check", "all/b.usm", "--files-from", "-"], b"all/c.usm\nall/more\n"));
    assert_eq!(both, expected);
    // Only a zero byte parts names that have newlines in them.
    let strange = OsStr::from_bytes(b"a\nb\xff.usm");
    fs::write(folder.join(strange), file(0, 1_000_000)).expect("a file");
    let list = [strange.as_bytes(), b"\0"].concat();
    let arguments = ["check", "--files-from", "-"].map(OsStr::new);
    let (status, line, _) = told(run_named(&folder, &arguments, &list));
    assert_eq!((status, line.as_str()), (0, "a\\nb\\xff.usm: ACCEPT 1 1000000\n"));
}

#[track_caller]
fn assert_undone(folder: &Path, arguments: &[&str], input: &[u8], message: &str) {
    let told = told(run(folder, arguments, input));
    assert_eq!(told, (2, String::new(), format!("sheet: {message}\n")), "{arguments:?}");
}

#[test]
fn a_list_without_a_name_is_told() {
    let folder = folder("tool-list-empty");
    assert_undone(&folder, &["check", "--files-from", "-"], b"", "-: names no file");
    assert_undone(&folder, &["check", "--files-from", "-"], b"\n\r\n", "-: names no file");
    let missing = "behind --files-from the name of a list is missing; usage: sheet check FILE.. \
                   [--files-from LIST] [--json] [--work] [--quiet]";
    assert_undone(&folder, &["check", "all", "--files-from"], b"", missing);
    let empty = "the name of a file is empty; a variable may not be set";
    assert_undone(&folder, &["check", "--files-from="], b"", empty);
    let (status, lines, message) = told(run(&folder, &["check", "--files-from", "none"], b""));
    assert_eq!((status, lines.as_str()), (2, ""));
    assert!(message.starts_with("sheet: none: cannot be read: "), "{message}");
}

#[test]
fn a_sheet_file_is_no_list() {
    let folder = folder("tool-list-sheet");
    for file in ["all/b.usm", "all/c.usm"] {
        let message = format!("{file}: is a sheet file, and no list of names");
        assert_undone(&folder, &["check", "--files-from", file], b"", &message);
    }
    // A name may begin as a sheet file does.
    fs::rename(folder.join("all/b.usm"), folder.join("USM1.usm")).expect("moved");
    for list in [&b"USM1.usm\n"[..], b"USM1.usm\0"] {
        let (status, lines, _) = told(run(&folder, &["check", "--files-from", "-"], list));
        assert_eq!((status, lines.as_str()), (0, "USM1.usm: ACCEPT 1 1000000\n"));
    }
}

#[test]
fn standard_input_is_read_once() {
    let folder = folder("tool-once");
    let again = "sheet: -: standard input can be read only once";
    let summary =
        "1 accepted, 0 refused, 1 not read; total margin of all accepted $1,000.000 (1000000 mills)";
    let (status, lines, said) = told(run(&folder, &["check", "-", "-"], &file(0, 1_000_000)));
    assert_eq!((status, lines.as_str()), (2, "-: ACCEPT 1 1000000\n"));
    assert_eq!(said.lines().skip(1).collect::<Vec<&str>>(), [again, summary]);
    let (status, lines, said) = told(run(&folder, &["check", "--files-from", "-"], b"-\nall/b.usm\n"));
    assert_eq!((status, lines.as_str()), (2, "all/b.usm: ACCEPT 1 1000000\n"));
    assert_eq!((said.lines().next(), said.lines().last()), (Some(again), Some(summary)));
}

/// The total of many sheets passes what one may have.
#[test]
fn totals_are_added_without_an_end() {
    let folder = common::folder("tool-totals");
    let most = |notation, strike| usm::Leg { unit_size: 1_000, contracts: 100_000, strike, ..leg(notation) };
    let pair = [most("S50c", 1), most("L50c", 99_999_999)];
    let legs: Vec<usm::Leg> = pair.into_iter().cycle().take(256).collect();
    let margin = 128 * 99_999_998 * 100_000_000_i64;
    let file = placed(&legs, &[margin]).to_file().expect("a file");
    let names: Vec<String> = (0..8).map(|number| format!("{number}.usm")).collect();
    for name in &names {
        fs::write(folder.join(name), &file).expect("a file");
    }
    let (status, lines, sentences) = told(run(&folder, &["check", "."], b""));
    assert_eq!((status, lines.lines().next()), (0, Some(format!("./0.usm: ACCEPT 1 {margin}").as_str())));
    let total = 8 * i128::from(margin);
    assert!(total > i128::from(i64::MAX));
    let summary =
        format!("8 accepted, 0 refused; total margin of all accepted {}", usm::numbers::amount(total));
    assert_eq!(sentences.lines().last(), Some(summary.as_str()));
}

#[test]
fn nobody_is_named_where_the_reader_does_not_take_a_file() {
    let folder = common::folder("tool-nobody");
    let mut damaged = file(7, 1_000_000);
    damaged[BLOCK_BYTES + 20] ^= 1;
    let (status, line, sentence) = told(run(&folder, &["check", "-"], &damaged));
    assert_eq!((status, line.as_str()), (1, "REFUSE 2 0 1\n"));
    assert_eq!(sentence, "-: refused: the 2nd of 3 blocks is damaged: its check sums do not fit its bytes\n");
    let (_, object, _) = told(run(&folder, &["check", "-", "--json"], &damaged));
    assert!(object.starts_with(r#"{"file":"-","form":null,"account":null,"verdict":"refused","#), "{object}");
}
