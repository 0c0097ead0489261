//! What cannot be read or written is a message and status 2, never a verdict.

use std::fs;
use std::os::unix::fs::symlink;
use std::process::Stdio;

use crate::door::{said, Door};
use crate::scripts::{set_mode, told};

const CLOSED: &str = "sheet: standard output: the stream is closed\n";

#[test]
fn what_is_no_file_to_read_gets_a_message_and_no_verdict() {
    let door = Door::with_tool("unreadable");
    fs::create_dir(door.file("folder")).expect("a folder");
    symlink("nowhere", door.file("dangling")).expect("a link");
    let names = ["folder", "missing", "dangling", "", "/proc/self/mem"];
    let run = door.run(&[&["check"], &names[..], &["empty"]].concat());
    assert_eq!((run.status, run.out.as_str()), (2, "empty: REFUSE 1 0 0\n"), "it goes on with the others");
    let told = [
        "sheet: folder: is a folder without a file whose name ends in .usm",
        "sheet: missing: cannot be read: ",
        "sheet: dangling: cannot be read: ",
        "sheet: the name of a file is empty; ",
        "sheet: /proc/self/mem: cannot be read: ",
    ];
    for (told, line) in told.iter().zip(run.err.lines()) {
        assert!(line.starts_with(told), "{line}");
    }
    assert!(run.err.contains("\n0 accepted, 1 refused, 5 not read; "), "{}", run.err);
    let folder = door.shell("\"$0\" check - <folder");
    assert_eq!((folder.status, folder.out.as_str()), (2, ""));
    assert!(folder.err.starts_with("sheet: -: cannot be read: "), "{}", folder.err);
}

#[test]
fn a_file_that_may_not_be_read_gets_a_message() {
    let door = Door::with_tool("forbidden");
    fs::copy(door.file("empty"), door.file("mine")).expect("a file");
    set_mode(&door.file("mine"), 0o000);
    let run = door.as_anyone(&["check", "mine", "empty"]);
    assert!(run.err.starts_with("sheet: mine: cannot be read: "), "{}", run.err);
    assert_eq!((run.status, run.out.as_str()), (2, "empty: REFUSE 1 0 0\n"));
}

/// A text of holdings stands in the folder of the files.
fn with_text(name: &str) -> Door {
    let door = Door::with_tool(name);
    let text = "holdings\n  long 1 call 60 2011-05-21 unit 100 underlying 7 american listed\n";
    fs::write(door.file("text"), text).expect("a text");
    door
}

#[test]
fn what_is_not_written_is_noticed() {
    let door = with_text("not-written");
    for line in ["\"$0\" check empty >&-", "\"$0\" make text - >&-", "\"$0\" help >&-"] {
        assert_eq!(door.shell(line), said(2, "", CLOSED), "{line}");
    }
    for line in ["\"$0\" check empty >/dev/full", "\"$0\" make text - >/dev/full"] {
        let run = door.shell(line);
        assert!(run.status == 2 && run.err.starts_with("sheet: standard output: "), "{line}: {run:?}");
    }
    // A reader that has gone away before anything is written.
    let mut command = door.sheet();
    command.args(["check", "empty", "empty"]).stdout(Stdio::piped()).stderr(Stdio::piped());
    let mut child = command.spawn().expect("sheet runs");
    drop(child.stdout.take());
    let run = told(child.wait_with_output().expect("sheet ends"));
    assert!(run.status == 2 && run.err.starts_with("sheet: standard output: "), "{run:?}");
}

#[test]
fn of_a_closed_input_there_is_no_verdict() {
    let door = with_text("no-input");
    let message = "sheet: -: cannot be read: the stream is closed\n";
    for line in ["\"$0\" check - <&-", "\"$0\" make - out <&-", "\"$0\" check - <&- 3<empty"] {
        assert_eq!(door.shell(line), said(2, "", message), "{line}");
    }
    assert!(!door.file("out").exists());
}

#[test]
fn a_closed_stream_that_is_not_needed_changes_nothing() {
    let door = with_text("closed");
    for line in ["\"$0\" check empty <&- 2>&-", "\"$0\" check empty 2>/dev/full"] {
        let run = door.shell(line);
        assert_eq!((run.status, run.out.as_str()), (1, "REFUSE 1 0 0\n"), "{line}");
    }
    assert_eq!(door.shell("\"$0\" make text out <&- >&- 2>&-"), said(0, "", ""));
    assert_eq!(door.run(&["show", "out"]).status, 0);
}
