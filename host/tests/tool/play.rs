//! `play`: a text of fills over a text of holdings.

use std::fs;

use crate::{example, folder, names_in, run, told, VERTICAL};

const LEG: &str = "call 60.000 2011-05-21 unit 100 underlying 7 american listed";

#[test]
fn a_day_is_played_and_what_is_held_is_written() {
    let folder = folder("tool-play");
    fs::write(folder.join("held.txt"), format!("holdings\n long 3 {LEG}\n long 2 {LEG}\n")).expect("a text");
    let fills = format!("fills\n close long 4 {LEG}\n open short 1 {LEG}\n");
    fs::write(folder.join("fills.txt"), fills).expect("a text");
    let summary = "2 played, 0 refused; the holdings have 2 records\n";
    assert_eq!(
        told(run(&folder, &["play", "held.txt", "fills.txt", "out.txt"], b"")),
        (0, String::new(), summary.into())
    );
    let today = format!("holdings\n  long  1 {LEG}\n  short 1 {LEG}\n");
    assert_eq!(fs::read_to_string(folder.join("out.txt")).expect("written"), today);
    // What comes out can be played on.
    let none = told(run(&folder, &["play", "out.txt", "-", "-"], b"fills\n"));
    assert_eq!(none, (0, today, "0 played, 0 refused; the holdings have 2 records\n".into()));
}

#[test]
fn refused_fills_are_told_one_a_line_and_play_goes_on() {
    let folder = folder("tool-play-refused");
    let fills = format!("fills\n close long 4 {LEG}\n open long 1 {LEG}\n close short 1 {LEG}\n");
    fs::write(folder.join("fills.txt"), fills).expect("a text");
    let held = format!("holdings\n long 3 {LEG}\n");
    let sentences = format!(
        "fills.txt: refusal 18: the 1st fill (`close long 4 {LEG}`) closes 4 contracts, and 3 are held\n\
         fills.txt: refusal 18: the 3rd fill (`close short 1 {LEG}`) closes 1 contract, and none is held\n\
         1 played, 2 refused; the holdings have 1 record\n"
    );
    let today = format!("holdings\n  long  4 {LEG}\n");
    let played = told(run(&folder, &["play", "-", "fills.txt", "-"], held.as_bytes()));
    assert_eq!(played, (1, today, sentences));
}

#[test]
fn a_sheets_placement_and_claims_are_left_out() {
    let folder = folder("tool-play-sheet");
    fs::write(folder.join("fills.txt"), "fills\n").expect("a text");
    let (status, printed, told) = told(run(&folder, &["play", "-", "fills.txt", "-"], VERTICAL.as_bytes()));
    assert_eq!((status, printed.lines().count()), (0, 3));
    let expected =
        "-: its placement and its claims are left out\n0 played, 0 refused; the holdings have 2 records\n";
    assert_eq!(told, expected);
}

#[test]
fn what_is_left_out_is_told_whichever_it_is() {
    let folder = folder("tool-play-left-out");
    fs::write(folder.join("fills.txt"), "fills\n").expect("a text");
    let left_out = "-: its placement and its claims are left out\n";
    let summary = "0 played, 0 refused; the holdings have 1 record\n";
    let held = format!("holdings\n  long  3 {LEG}\n");
    for (rest, said) in [
        ("", String::from(summary)),
        (&*format!("placement\n group 1 long 3 {LEG}\n"), format!("{left_out}{summary}")),
        ("claims\n claim 1 0\n", format!("{left_out}{summary}")),
    ] {
        let played = told(run(&folder, &["play", "-", "fills.txt", "-"], format!("{held}{rest}").as_bytes()));
        assert_eq!(played, (0, held.clone(), said), "{rest}");
    }
}

#[test]
fn the_account_goes_with_the_holdings() {
    let folder = folder("tool-play-account");
    fs::write(folder.join("fills.txt"), format!("fills\n open long 1 {LEG}\n")).expect("a text");
    let held = |contracts| format!("account {}\n\nholdings\n  long  {contracts} {LEG}\n", u64::MAX);
    let played = told(run(&folder, &["play", "-", "fills.txt", "-"], held(3).as_bytes()));
    assert_eq!(played, (0, held(4), "1 played, 0 refused; the holdings have 1 record\n".into()));
    // A sheet file says it, too; a CSV does not, and that is told.
    assert_eq!(told(run(&folder, &["play", "-", "fills.txt", "out.usm"], held(3).as_bytes())).0, 0);
    assert_eq!(told(run(&folder, &["show", "--holdings", "out.usm"], b"")).1, held(4));
    let (status, _, said) = told(run(&folder, &["play", "-", "fills.txt", "out.csv"], held(3).as_bytes()));
    let account = "-: its account, 18446744073709551615, is left out: a CSV does not say it\n";
    assert_eq!((status, said), (0, format!("{account}1 played, 0 refused; the holdings have 1 record\n")));
}

/// The object has no key for it.
#[test]
fn what_is_left_out_is_told_beside_an_object() {
    let folder = folder("tool-play-json-left-out");
    fs::write(folder.join("fills.txt"), "fills\n").expect("a text");
    let sheet = format!("account 7\n{VERTICAL}");
    let played = |out: &str| told(run(&folder, &["play", "-", "fills.txt", out, "--json"], sheet.as_bytes()));
    let left_out = "-: its placement and its claims are left out\n";
    let (status, object, said) = played("out.txt");
    assert_eq!((status, object.lines().count(), said.as_str()), (0, 1, left_out));
    let (status, object, said) = played("out.csv");
    let account = "-: its account, 7, is left out: a CSV does not say it\n";
    assert_eq!((status, object.lines().count(), said), (0, 1, format!("{left_out}{account}")));
}

#[test]
fn what_cannot_be_played_writes_nothing() {
    let folder = folder("tool-play-wrong");
    let held = format!("holdings\n long 60000 {LEG}\n long 60000 {LEG}\n");
    fs::write(folder.join("held.txt"), held).expect("a text");
    fs::write(folder.join("fills.txt"), "fills\n").expect("a text");
    fs::write(folder.join("bad.txt"), format!("fills\n opened long 1 {LEG}\n")).expect("a text");
    let past = format!(
        "sheet: held.txt: refusal 19: the 2nd record of the holdings (`long 60000 {LEG}`): with it there are \
         120,000 contracts of its line and side, more than 100,000\n"
    );
    let word = "sheet: bad.txt: line 2, column 2: expected `open` or `close`, found `opened`\n";
    let both = "sheet: holdings and fills cannot both be standard input\n";
    let same = "sheet: fills.txt: cannot be written over itself; name another file for OUT\n";
    for (arguments, message) in [
        (["play", "held.txt", "fills.txt", "out.txt"], past.as_str()),
        (["play", "held.txt", "bad.txt", "out.txt"], word),
        (["play", "-", "-", "out.txt"], both),
        (["play", "held.txt", "fills.txt", "./fills.txt"], same),
    ] {
        assert_eq!(told(run(&folder, &arguments, b"")), (2, String::new(), message.into()));
    }
    assert_eq!(names_in(&folder), ["bad.txt", "fills.txt", "held.txt"]);
}

#[test]
fn the_fills_in_the_help_are_some_that_play_reads() {
    let fills = usm::text::parse_fills(&example(usm::text::FILLS_FORMAT, "  "));
    assert_eq!(fills.map(|fills| fills.len()), Ok(2));
}
