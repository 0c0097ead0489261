//! What is said of a command that is not understood, and the help.

use crate::{folder, run, told};

const MAKE: &str =
    "usage: sheet make TEXT OUT [--force], or sheet make HOLDINGS.csv PLACEMENT.csv OUT [--force]";

/// Each is told in one line, with status 2. The folder is the test's own: tests run beside each other.
#[track_caller]
fn assert_told(name: &str, cases: &[(&[&str], &str)]) {
    let folder = folder(name);
    for (arguments, message) in cases {
        let expected = (2, String::new(), format!("sheet: {message}\n"));
        assert_eq!(told(run(&folder, arguments, b"")), expected, "{arguments:?}");
    }
}

#[test]
fn a_command_that_is_meant_is_told_in_one_line() {
    let check = "usage: sheet check FILE.. [--files-from LIST] [--json] [--work] [--quiet]";
    assert_told(
        "tool-usage-meant",
        &[
            (&["make", "a"], MAKE),
            (&["make", "a.csv", "b.txt", "c"], MAKE),
            (&["check", "--quiet"], check),
            (&["check"], check),
            (&["show", "a", "b"], "usage: sheet show FILE [--holdings]"),
            (&["worksheet", "a"], "usage: sheet worksheet FILE G [--json]"),
            (&["join", "a", "1", "2"], "usage: sheet join FILE G K OUT [--force]"),
            (&["import", "a", "b"], "usage: sheet import ROOTS LIST OUT [--force] [--json]"),
            (&["help", "make", "show"], "usage: sheet help [COMMAND]"),
            (&["check", "a", "--force"], &format!("`check` takes no `--force`; {check}")),
            (&["show", "a", "--work"], "`show` takes no `--work`; usage: sheet show FILE [--holdings]"),
            (&["check", "--frob", "a"], &format!("there is no option `--frob`; {check}")),
        ],
    );
}

#[test]
fn a_misspelt_command_is_told_with_the_nearest() {
    let nearest = |word: &str, form: &str| {
        let name = form.split_whitespace().nth(1).expect("a command");
        format!("there is no command `{word}`; the nearest is `{name}`, usage: {form}")
    };
    assert_told(
        "tool-usage-misspelt",
        &[
            (
                &["chekc", "a"],
                &nearest("chekc", "sheet check FILE.. [--files-from LIST] [--json] [--work] [--quiet]"),
            ),
            (&["maek", "a", "b"], &nearest("maek", MAKE.trim_start_matches("usage: "))),
            (&["margin", "a"], &nearest("margin", "sheet margins FILE [--json]")),
            (&["tonew", "a"], &nearest("tonew", "sheet to-new FILE ACCOUNT OUT [--force]")),
            (&["work-sheet"], &nearest("work-sheet", "sheet worksheet FILE G [--json]")),
            (&["help", "slavage"], &nearest("slavage", "sheet salvage FILE OUT [--force] [--json]")),
            (&["frobnicate", "a"], "there is no command `frobnicate`; `sheet help` shows the commands"),
            (&["", "a"], "a command is missing; `sheet help` shows the commands"),
            (&[], "a command is missing; `sheet help` shows the commands"),
            (&["--frob"], "there is no option `--frob`; `sheet help` shows the commands"),
            (&["\u{1b}[2J"], "there is no command `\\u{1b}[2J`; `sheet help` shows the commands"),
        ],
    );
}

#[test]
fn help_and_version_are_printed() {
    let folder = folder("tool-help");
    for arguments in [&["help"][..], &["-h"], &["--help"], &["help", "--help"]] {
        let (status, help, errors) = told(run(&folder, arguments, b""));
        assert_eq!((status, errors.as_str()), (0, ""));
        for words in ["usage:\n  sheet make TEXT OUT", "american", "status is 0 if all is well", "AAPL"] {
            assert!(arguments == ["help", "--help"] || help.contains(words), "{help}");
        }
    }
    let version = format!("sheet {}\n", usm::VERSION);
    assert_eq!(told(run(&folder, &["--version"], b"")), (0, version, String::new()));
}

#[test]
fn the_help_of_a_command_is_about_that_command() {
    let folder = folder("tool-help-command");
    let help = |arguments: &[&str]| {
        let (status, help, errors) = told(run(&folder, arguments, b""));
        assert_eq!((status, errors.as_str()), (0, ""), "{arguments:?}");
        help
    };
    assert_eq!(
        help(&["help", "margins"]),
        "usage:\n  sheet margins FILE [--json]\n        print the margin of each group\n"
    );
    assert_eq!(help(&["help", "make"]), help(&["make", "--help"]));
    let play = help(&["play", "-h"]);
    assert!(play.contains("sheet play HOLDINGS FILLS OUT") && play.contains("A day's fills are"), "{play}");
    assert!(!play.contains("sheet make"), "{play}");
    let binary = help(&["help", "binary"]);
    assert!(
        binary.contains("sheet binary long|short") && binary.contains("sheet binary --table"),
        "{binary}"
    );
    assert!(!binary.contains("sheet pair"), "{binary}");
}

#[test]
fn an_empty_name_is_told_as_empty() {
    let empty = "the name of a file is empty; a variable may not be set";
    assert_told("tool-usage-empty", &[
        (&["show", ""], empty),
        (&["check", ""], empty),
        (&["make", "", "out"], empty),
        (&["play", "", "", "out"], empty),
        (&["export", "", "a", "out"], empty),
        (&["worksheet", "a", ""], "expected the number of a group, found an empty word"),
        (
            &["binary", ""],
            "expected `long` or `short`, found an empty word\nsheet: usage: sheet binary long|short spread \
             BASIS-POINTS valued DATE expires DATE contracts COUNT, or sheet binary --table",
        ),
    ]);
    let folder = folder("tool-empty-out");
    let made = told(run(&folder, &["make", "-", ""], crate::VERTICAL.as_bytes()));
    assert_eq!(made, (2, String::new(), format!("sheet: {empty}\n")));
}
