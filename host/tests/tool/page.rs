//! The examples on host/README.md: each is run, in order, and prints what stands below it. After a change that is
//! meant, `USM_WRITE_PAGE=1` writes what is printed into the page, to be read through.

use std::fs;
use std::path::{Path, PathBuf};
use std::process::Command;

use crate::scripts::put_script;
use crate::{answer, common, folder};

const COMMAND: &str = "    $ ";
const INDENT: &str = "    ";

fn page() -> PathBuf {
    Path::new(env!("CARGO_MANIFEST_DIR")).join("README.md")
}

/// A folder with the samples and, on a path of its own, the tool as `sheet`.
fn desk() -> PathBuf {
    let desk = folder("tool-page");
    let samples = Path::new(env!("CARGO_MANIFEST_DIR")).join("../samples");
    let copied = Command::new("cp").arg("-r").args([&samples, &desk]).status().expect("cp runs");
    assert!(copied.success());
    fs::create_dir(desk.join("bin")).expect("a folder");
    let tool = common::program(env!("CARGO_BIN_EXE_usm_sheet"));
    let words: Vec<String> = [tool.get_program()]
        .into_iter()
        .chain(tool.get_args())
        .map(|word| format!("'{}'", word.to_str().expect("UTF-8")))
        .collect();
    put_script(&desk.join("bin/sheet"), &format!("exec {} \"$@\"", words.join(" ")));
    desk
}

/// What a command line prints on both outputs, as on a screen.
fn printed(desk: &Path, command: &str) -> Vec<String> {
    let path = std::env::var("PATH").expect("a path");
    let mut shell = Command::new("sh");
    shell.args(["-c", &format!("exec 2>&1\n{command}")]).current_dir(desk);
    shell.env("PATH", format!("{}:{path}", desk.join("bin").display()));
    let output = answer(shell, b"");
    assert_ne!(output.status.code(), Some(127), "{command}");
    String::from_utf8(output.stdout).expect("UTF-8").lines().map(String::from).collect()
}

/// The name of the file that a line of prose announces: "`NAME`:" at its end.
fn announced(line: &str) -> Option<&str> {
    let name = line.strip_suffix("`:")?.rsplit('`').next()?;
    (name.contains('.') && !name.contains(' ')).then_some(name)
}

/// How many of these lines belong to what is set apart here, empty ones inside of it too.
fn set_apart(lines: &[&str]) -> usize {
    let is_text = |line: &&str| line.starts_with(INDENT) && !line.starts_with(COMMAND);
    let more = lines.iter().position(|line| !is_text(line) && !line.is_empty()).unwrap_or(lines.len());
    lines[..more].iter().rposition(is_text).map_or(0, |last| last + 1)
}

/// A line of the page that ends in three dots stands for all that begins so.
fn as_on_page(printed: &str, said: Option<&&str>) -> String {
    let start = said.and_then(|line| line.strip_prefix(INDENT)?.strip_suffix(" ..."));
    match start {
        Some(start) if printed.starts_with(start) => format!("{INDENT}{start} ..."),
        _ => format!("{INDENT}{printed}").trim_end().into(),
    }
}

/// What should stand below a command. One with a PREFIX, which is the reader's to choose, is not run.
fn run_example(desk: &Path, command: &str, said: &[&str]) -> Vec<String> {
    if command.contains("PREFIX") {
        return said.iter().map(|line| String::from(*line)).collect();
    }
    let printed = printed(desk, command);
    printed.iter().enumerate().map(|(row, line)| as_on_page(line, said.get(row))).collect()
}

/// The page as it should be, and how many commands stand on it.
fn run_through(page: &str, desk: &Path) -> (Vec<String>, usize) {
    let lines: Vec<&str> = page.lines().collect();
    let (mut written, mut commands, mut prose, mut at) = (Vec::new(), 0, "", 0);
    while let Some(line) = lines.get(at) {
        if let Some(command) = line.strip_prefix(COMMAND) {
            let said = &lines[at + 1..][..set_apart(&lines[at + 1..])];
            written.push(String::from(*line));
            written.extend(run_example(desk, command, said));
            commands += 1;
            at += 1 + said.len();
            continue;
        }
        if let (true, Some(name)) = (line.starts_with(INDENT), announced(prose)) {
            let length = set_apart(&lines[at..]);
            let text =
                lines[at..][..length].iter().map(|line| format!("{}\n", line.get(4..).unwrap_or_default()));
            fs::create_dir_all(desk.join(name).parent().expect("a folder")).expect("a folder");
            fs::write(desk.join(name), text.collect::<String>()).expect("a file");
            written.extend(lines[at..][..length].iter().map(|line| String::from(*line)));
            (at, prose) = (at + length, "");
            continue;
        }
        if !line.is_empty() && !line.starts_with(INDENT) {
            prose = line;
        }
        written.push(String::from(*line));
        at += 1;
    }
    (written, commands)
}

#[test]
fn every_example_prints_what_stands_below_it() {
    let text = fs::read_to_string(page()).expect("the page");
    let (written, commands) = run_through(&text, &desk());
    assert!(commands > 25, "{commands} examples");
    if std::env::var_os("USM_WRITE_PAGE").is_some() {
        fs::write(page(), written.iter().map(|line| format!("{line}\n")).collect::<String>())
            .expect("a page");
        return;
    }
    for (found, line) in written.iter().zip(text.lines()) {
        assert_eq!(found, line);
    }
    assert_eq!(written.len(), text.lines().count());
}
