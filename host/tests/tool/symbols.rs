//! `import` and `export`: lists of option symbols.

use std::fs;
use std::path::{Path, PathBuf};

use usm::text::{LIST_FORMAT, ROOTS_FORMAT};

use crate::{common, example, names_in, run, told, VERTICAL};

const ROOTS: &str = "\
SPX  european listed unit 100 cash underlying 7 # the index
AAPL american listed unit 100 physical underlying 8
";

const LIST: &str = "\
AAPL  110521C00060000 L 10
SPX   120229P01250500 S 100000
";

const HOLDINGS: &str = "\
holdings
  long  10 call 60.000 2011-05-21 unit 100 underlying 8 american listed physical
  short 100000 put  1250.500 2012-02-29 unit 100 underlying 7 european listed cash
";

/// A folder with the roots in it.
fn folder(name: &str) -> PathBuf {
    let folder = common::folder(name);
    fs::write(folder.join("roots.txt"), ROOTS).expect("a text");
    folder
}

/// Imports a list from standard input into a file, which is not there afterwards; what is said.
fn refused(folder: &Path, list: &str) -> String {
    let (status, printed, message) =
        told(run(folder, &["import", "roots.txt", "-", "out.txt"], list.as_bytes()));
    assert_eq!((status, printed.as_str()), (1, ""), "{message}");
    assert!(!folder.join("out.txt").exists());
    message
}

#[test]
fn a_list_becomes_holdings_and_the_holdings_the_list() {
    let folder = folder("tool-import");
    fs::write(folder.join("list.txt"), LIST).expect("a list");
    let imported = "list.txt: 2 lines imported\n";
    for out in ["held.txt", "held.usm"] {
        let told = told(run(&folder, &["import", "roots.txt", "list.txt", out], b""));
        assert_eq!(told, (0, String::new(), imported.into()));
    }
    assert_eq!(fs::read_to_string(folder.join("held.txt")).expect("a text"), HOLDINGS);
    let made = run(&folder, &["make", "held.txt", "-"], b"").stdout;
    assert_eq!(fs::read(folder.join("held.usm")).expect("a file"), made);
    for held in ["held.txt", "held.usm"] {
        let told = told(run(&folder, &["export", "roots.txt", held, "-"], b""));
        assert_eq!(told, (0, LIST.into(), format!("{held}: 2 records exported\n")));
    }
    let one = told(run(&folder, &["import", "roots.txt", "-", "-"], &LIST.as_bytes()[..27]));
    assert_eq!((one.0, one.2.as_str()), (0, "-: 1 line imported\n"));
}

#[test]
fn a_sheet_is_listed_without_its_placement_and_its_claims() {
    let folder = folder("tool-export-sheet");
    fs::write(folder.join("roots.txt"), "A american listed unit 100 underlying 7\n").expect("a text");
    let file = run(&folder, &["make", "-", "-"], VERTICAL.as_bytes()).stdout;
    let list = "A     110521C00060000 L 1\nA     110521C00050000 S 1\n";
    for input in [VERTICAL.as_bytes(), &file] {
        let told = told(run(&folder, &["export", "roots.txt", "-", "-"], input));
        let said = "-: its placement and its claims are left out\n-: 2 records exported\n";
        assert_eq!(told, (0, list.into(), said.into()));
    }
}

#[test]
fn an_empty_list_has_no_holdings_and_no_file() {
    let folder = folder("tool-import-empty");
    let none = "holdings\n";
    assert_eq!(
        told(run(&folder, &["import", "roots.txt", "-", "-"], b"")),
        (0, none.into(), "-: 0 lines imported\n".into())
    );
    assert_eq!(told(run(&folder, &["export", "roots.txt", "-", "-"], none.as_bytes())).1, "");
    let file = "sheet: -: there is no record in it, and an empty sheet has no file\n";
    assert_eq!(
        told(run(&folder, &["import", "roots.txt", "-", "out.usm"], b"")),
        (2, String::new(), file.into())
    );
    assert_eq!(names_in(&folder), ["roots.txt"]);
}

#[test]
fn every_line_that_is_refused_is_told_with_its_text() {
    let folder = folder("tool-import-refused");
    let list = format!(
        "{LIST}AAPL  110521C00060000 L 0\nAAPL  110229C00060000 L 100001\n\nMSFT  110521C00060000 L 1\n\
         \u{1b}[2J  110521C00060000 L 1\nAAPL  110521C00060000 L 7\r\nAAPL  110521C00060000 L 7"
    );
    assert_eq!(
        refused(&folder, &list),
        "-: refusal 22: line 3: AAPL  110521C00060000 L 0: contracts are 1 to 100,000, without a leading zero\n\
         -: refusal 4: line 4: AAPL  110229C00060000 L 100001: the expiry must be a real date YYMMDD, and 110229 is none; \
         contracts are 1 to 100,000, without a leading zero\n\
         -: refusal 22: line 5: it is empty; a line has a symbol, L or S, and contracts\n\
         -: refusal 24: line 6: MSFT  110521C00060000 L 1: the root MSFT is not in the table of roots\n\
         -: refusal 22: line 7: \\u{1b}[2J  110521C00060000 L 1: columns 1 to 6 must be the root, 1 to 6 of A-Z and 0-9 \
         with a letter first, and blanks behind it\n\
         -: refusal 22: line 8: AAPL  110521C00060000 L 7\\r: it has a carriage return, as lists from Windows do; \
         a line ends in a newline alone\n\
         -: refusal 22: line 9: AAPL  110521C00060000 L 7: the newline at its end is missing\n"
    );
}

#[test]
fn a_list_from_windows_is_told_so_once() {
    let folder = folder("tool-import-windows");
    let said =
        "-: refusal 22: every line ends in a carriage return and a newline, as in lists from Windows; \
                a line of a list ends in a newline alone\n";
    let list = LIST.replace('\n', "\r\n");
    assert_eq!(refused(&folder, &list), said);
    assert_eq!(refused(&folder, list.trim_end()), said, "no newline behind the last line");
    assert!(refused(&folder, &format!("{LIST}{list}")).starts_with("-: refusal 22: line 3: "));
}

#[test]
fn errors_behind_the_twentieth_are_counted() {
    let folder = folder("tool-import-twenty");
    let message = refused(&folder, &format!("{LIST}{}", "AAPL\n".repeat(50)));
    assert_eq!(message.lines().count(), 21);
    assert!(message.starts_with("-: refusal 22: line 3: AAPL: columns 1 to 6 must be the root"), "{message}");
    assert_eq!(message.lines().last(), Some("-: and 30 more errors"));
}

#[test]
fn a_list_has_a_limit() {
    let folder = folder("tool-import-limit");
    let line = "AAPL  110521C00060000 L 100000\n";
    let full = line.repeat(256);
    let (status, list, _) = told(run(&folder, &["import", "roots.txt", "-", "-"], full.as_bytes()));
    assert_eq!((status, list.lines().count()), (0, 257));
    assert_eq!(
        told(run(&folder, &["export", "roots.txt", "-", "-"], list.as_bytes())).1,
        full,
        "and back again"
    );
    let past = "-: refusal 1: the list has 257 lines, more than 256\n";
    assert_eq!(refused(&folder, &format!("{full}{line}")), past);
    let long = "x".repeat(8 * 7_936 + 1);
    let (status, _, message) = told(run(&folder, &["import", "roots.txt", "-", "-"], long.as_bytes()));
    let too_long = "sheet: -: has more than 63,488 bytes; a list of 256 lines has at most 7,936\n";
    assert_eq!((status, message.as_str()), (2, too_long));
    let cut = format!("-: refusal 22: line 1: {}..: columns 1 to 6 must be the root", "x".repeat(60));
    assert!(refused(&folder, &long[..63_488]).starts_with(&cut));
}

#[test]
fn records_that_no_line_says_are_told_with_their_text() {
    let folder = folder("tool-export-refused");
    let leg = "call 60.000 2011-05-21 unit 100 underlying 8 american listed";
    let held = format!("holdings\n long 1 {leg} physical\n long 2 {leg} physical paid\n short 3 {leg}\n");
    let (status, printed, message) =
        told(run(&folder, &["export", "roots.txt", "-", "out.txt"], held.as_bytes()));
    let said = format!(
        "-: refusal 4: the 2nd record of the holdings (`long 2 {leg} physical paid`) is marked as `paid`, and a \
         list cannot say that\n\
         -: refusal 24: the 3rd record of the holdings (`short 3 {leg}`): no root stands for its terms, \
         american listed unit 100 underlying 8\n"
    );
    assert_eq!((status, printed, message), (1, String::new(), said));
    assert_eq!(names_in(&folder), ["roots.txt"]);
}

#[test]
fn roots_are_told_of_in_the_way_of_texts_and_of_refusals() {
    let folder = folder("tool-import-roots");
    fs::write(folder.join("list.txt"), LIST).expect("a list");
    for (roots, status, said) in [
        ("SPX europan\n1A\n", 2, "sheet: -: line 1, column 5: expected `american` or `european`, found `europan`\n\
         sheet: -: line 2, column 1: expected a root, 1 to 6 of A-Z and 0-9 with a letter first, found `1A`\n"),
        ("# none\n", 1, "-: refusal 23: the table of roots is empty; it has 1 to 256 roots\n"),
        (&format!("{ROOTS}SPX american otc unit 1 underlying 1"), 1,
         "-: refusal 23: the 3rd root (`SPX american otc unit 1 underlying 1`) has the name of the 1st\n"),
        (&format!("{ROOTS}SPXW european listed unit 100 cash underlying 7"), 1,
         "-: refusal 23: the 3rd root (`SPXW european listed unit 100 cash underlying 7`) has the terms of the 1st; \
          no two roots may stand for the same\n"),
    ] {
        for command in [["import", "-", "list.txt", "out.txt"], ["export", "-", "held.txt", "out.txt"]] {
            fs::write(folder.join("held.txt"), HOLDINGS).expect("a text");
            let told = told(run(&folder, &command, roots.as_bytes()));
            assert_eq!(told, (status, String::new(), said.into()));
        }
    }
    assert_eq!(names_in(&folder), ["held.txt", "list.txt", "roots.txt"]);
}

#[test]
fn what_is_there_stays_and_standard_input_is_read_once() {
    let folder = folder("tool-import-kept");
    for (name, text) in [("list.txt", LIST), ("held.txt", HOLDINGS), ("out.txt", "mine")] {
        fs::write(folder.join(name), text).expect("a file");
    }
    let kept = "out.txt: is there already; --force overwrites it";
    let again = |name: &str| format!("{name}: cannot be written over itself; name another file for OUT");
    for (arguments, message) in [
        (["import", "roots.txt", "list.txt", "out.txt"], kept.into()),
        (["export", "roots.txt", "held.txt", "out.txt"], kept.into()),
        (["import", "roots.txt", "list.txt", "./list.txt"], again("list.txt")),
        (["import", "roots.txt", "list.txt", "./roots.txt"], again("roots.txt")),
        (["export", "roots.txt", "held.txt", "./held.txt"], again("held.txt")),
        (["import", "-", "-", "new.txt"], "the roots and the list cannot both be standard input".into()),
        (["export", "-", "-", "new.txt"], "the roots and the sheet cannot both be standard input".into()),
    ] {
        let told = told(run(&folder, &arguments, b""));
        assert_eq!(told, (2, String::new(), format!("sheet: {message}\n")), "{arguments:?}");
    }
    assert_eq!(fs::read(folder.join("out.txt")).expect("kept"), b"mine");
    assert_eq!(fs::read_to_string(folder.join("list.txt")).expect("kept"), LIST);
    assert_eq!(told(run(&folder, &["import", "roots.txt", "list.txt", "out.txt", "--force"], b"")).0, 0);
    assert_eq!(fs::read_to_string(folder.join("out.txt")).expect("imported"), HOLDINGS);
    assert_eq!(told(run(&folder, &["export", "roots.txt", "held.txt", "out.txt", "--force"], b"")).0, 0);
    assert_eq!(fs::read_to_string(folder.join("out.txt")).expect("exported"), LIST);
    assert_eq!(names_in(&folder), ["held.txt", "list.txt", "out.txt", "roots.txt"]);
}

#[test]
fn what_is_no_sheet_is_told() {
    let folder = folder("tool-export-no-sheet");
    for (bytes, message) in [
        (
            &b"long 1\n"[..],
            "line 1, column 1: expected the section `holdings`, `placement` or `claims`, found `long`",
        ),
        (b"holdings\n\xFF\n", "line 2: expected text in UTF-8"),
        (
            &[0; 512],
            "refusal 3: this is no sheet file, which begins with the mark `USM1` or `USM2`; it has nothing but zero bytes",
        ),
    ] {
        let told = told(run(&folder, &["export", "roots.txt", "-", "-"], bytes));
        assert_eq!(told, (2, String::new(), format!("sheet: -: {message}\n")));
    }
}

#[test]
fn the_roots_and_the_list_in_the_help_and_on_the_page_go_together() {
    let folder = common::folder("tool-import-help");
    let list = LIST_FORMAT.split("\n\n").nth(1).expect("a list");
    let page = fs::read_to_string(Path::new(env!("CARGO_MANIFEST_DIR")).join("README.md")).expect("a page");
    let section =
        page.split("\n## ").find(|section| section.starts_with("Lists of option")).expect("a section");
    let blocks: Vec<String> = section
        .split("\n\n")
        .filter(|block| block.starts_with("    "))
        .map(|block| example(block, "    "))
        .collect();
    let help = (example(ROOTS_FORMAT, "  "), format!("{list}\n"));
    for (roots, list) in [help, (blocks[0].clone(), blocks[1].clone())] {
        fs::write(folder.join("roots.txt"), roots).expect("a text");
        let (status, holdings, said) =
            told(run(&folder, &["import", "roots.txt", "-", "-"], list.as_bytes()));
        assert_eq!((status, said.as_str()), (0, "-: 2 lines imported\n"));
        let back = run(&folder, &["export", "roots.txt", "-", "-"], holdings.as_bytes()).stdout;
        assert_eq!(String::from_utf8(back).expect("UTF-8"), list);
    }
}
