//! The verdict as a script meets it: lines, names and statuses, standard input once, files of any length.

use std::fs;
use std::os::unix::fs::symlink;
use std::path::Path;

use usm_kit::accounts::fullest;

use crate::door::Door;

/// A clone with the tool, and these samples beside it.
fn with_samples(name: &str, files: &[&str]) -> Door {
    let door = Door::with_tool(name);
    let samples = Path::new(env!("CARGO_MANIFEST_DIR")).join("../samples");
    for file in files {
        fs::copy(samples.join(file), door.file(file)).expect("a sample");
    }
    door
}

#[test]
fn the_status_is_the_worst_of_all_files() {
    let door = with_samples("several", &["box.usm", "torn-file.usm"]);
    symlink("box.usm", door.file("link.usm")).expect("a link");
    for (names, status, lines) in [
        (&["torn-file.usm", "box.usm"][..], 1, "torn-file.usm: REFUSE 1 0 0\nbox.usm: ACCEPT 1 0\n"),
        (&["box.usm", "link.usm"], 0, "box.usm: ACCEPT 1 0\nlink.usm: ACCEPT 1 0\n"),
        (&["no.usm", "torn-file.usm", "box.usm"], 2, "torn-file.usm: REFUSE 1 0 0\nbox.usm: ACCEPT 1 0\n"),
    ] {
        let run = door.run(&[&["check"], names].concat());
        assert_eq!((run.status, run.out.as_str()), (status, lines));
    }
}

#[test]
fn the_samples_have_the_lines_of_their_table() {
    let samples = Path::new(env!("CARGO_MANIFEST_DIR")).join("../samples");
    let table = fs::read_to_string(samples.join("README.md")).expect("samples/README.md");
    let rows: Vec<(&str, &str)> = table
        .lines()
        .filter_map(|row| match row.split('|').map(str::trim).collect::<Vec<_>>().as_slice() {
            // In a folder stand lists and fills, which are no sheets.
            ["", name, line, _, ""] if name.starts_with('`') && !name.contains('/') => {
                Some((name.trim_matches('`'), line.trim_matches('`')))
            }
            _ => None,
        })
        .collect();
    let names: Vec<&str> = rows.iter().map(|row| row.0).collect();
    assert!(names.len() >= 12, "a dozen samples");
    let run = with_samples("samples", &names).run(&[&["check"], &names[..]].concat());
    let lines: Vec<String> = rows.iter().map(|(name, line)| format!("{name}: {line}")).collect();
    assert_eq!(run.out.lines().collect::<Vec<_>>(), lines);
}

#[test]
fn a_file_of_any_length_is_answered() {
    let door = Door::with_tool("lengths");
    let full = fullest().to_file().expect("a file");
    for (name, bytes) in
        [("full", full.clone()), ("longer", [&full[..], b"U"].concat()), ("far", vec![0; 1 << 20])]
    {
        fs::write(door.file(name), bytes).expect("a file");
    }
    let run = door.run(&["check", "full", "longer", "far", "empty", "/dev/zero"]);
    let lines = "full: ACCEPT 32 12800\nlonger: REFUSE 1 0 0\nfar: REFUSE 1 0 0\nempty: REFUSE 1 0 0\n\
                 /dev/zero: REFUSE 1 0 0\n";
    assert_eq!((run.status, run.out.as_str()), (1, lines));
}

#[test]
fn standard_input_is_a_file_too_but_only_once() {
    let door = with_samples("input", &["box.usm", "torn-file.usm"]);
    let run = door.shell("\"$0\" check - <box.usm");
    assert_eq!((run.status, run.out.as_str()), (0, "ACCEPT 1 0\n"));
    let piped = door.shell("cat torn-file.usm | \"$0\" check box.usm -");
    assert_eq!((piped.status, piped.out.as_str()), (1, "box.usm: ACCEPT 1 0\n-: REFUSE 1 0 0\n"));
    let twice = door.shell("\"$0\" check - box.usm - <box.usm");
    assert_eq!((twice.status, twice.out.as_str()), (2, "-: ACCEPT 1 0\nbox.usm: ACCEPT 1 0\n"));
    let message = "sheet: -: standard input can be read only once\n2 accepted, 0 refused, 1 not read; ";
    assert!(twice.err.contains(message), "{}", twice.err);
}

#[test]
fn no_name_passes_for_an_option_or_for_a_line() {
    let door = with_samples("names", &["box.usm", "torn-file.usm"]);
    for name in ["--help", "-x", "--"] {
        fs::copy(door.file("box.usm"), door.file(name)).expect("a file");
    }
    let ended = door.run(&["check", "--", "--help", "-x", "--"]);
    let lines = "--help: ACCEPT 1 0\n-x: ACCEPT 1 0\n--: ACCEPT 1 0\n";
    assert_eq!((ended.status, ended.out.as_str()), (0, lines));
    let name = "x: ACCEPT 1 0\ny";
    fs::copy(door.file("torn-file.usm"), door.file(name)).expect("a file");
    let run = door.run(&["check", "box.usm", name]);
    assert_eq!(run.out, "box.usm: ACCEPT 1 0\nx: ACCEPT 1 0\\ny: REFUSE 1 0 0\n");
    assert_eq!(run.err.lines().count(), 3, "a sentence each, and the summary: {}", run.err);
}
