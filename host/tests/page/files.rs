//! What the command takes and leaves: several files, files that cannot be read, a page that is there already.

use std::fs;
use std::path::Path;

use usm::numbers::{amount, count};
use usm::{check_file, Leg, Sheet};
use usm_kit::accounts::{leg, placed};

use crate::common::folder;
use crate::reader::{body, pieces, table, tables, tags, texts};
use crate::{page_of, run, sample, sample_names};

/// Status and standard error.
fn told(folder: &Path, words: &[&str]) -> (Option<i32>, String) {
    let output = run(folder, words);
    assert!(output.stdout.is_empty(), "{}", String::from_utf8_lossy(&output.stdout));
    (output.status.code(), String::from_utf8(output.stderr).expect("UTF-8"))
}

#[test]
fn the_contents_list_every_file_and_add_up_the_accepted() {
    let names = sample_names();
    let files: Vec<(String, Vec<u8>)> = names.iter().map(|name| (name.clone(), sample(name))).collect();
    let files: Vec<(&str, &[u8])> =
        files.iter().map(|(name, file)| (name.as_str(), file.as_slice())).collect();
    let pieces = pieces(body(&page_of("page-contents", &files)));
    let tables = tables(&pieces);
    let rows = table(&tables, "Contents").records();
    assert_eq!(rows.len(), names.len() + 1);
    let (mut groups, mut total) = (0, 0);
    for ((name, file), row) in files.iter().zip(&rows) {
        let account = Sheet::from_file(file).map_or(0, |sheet| sheet.account);
        let named = if account > 0 { format!("{name} account {account}") } else { name.to_string() };
        let expected = match check_file(file) {
            Ok(accepted) => {
                groups += accepted.groups;
                total += accepted.total;
                [named, format!("accepted, {}", count(accepted.groups, "group")), amount(accepted.total)]
            }
            Err(_) => [named, "refused".into(), "\u{2013}".into()],
        };
        assert_eq!(*row, expected);
    }
    let sums = ["All that are accepted".into(), count(groups, "group"), amount(total)];
    assert_eq!(rows[names.len()], sums);
    let sections: Vec<&str> = tags(&pieces, "section").filter_map(|tag| tag.get("id")).collect();
    assert!((1..=names.len()).all(|number| sections.contains(&format!("sheet-{number}").as_str())));
    let accepted = files.iter().filter(|(_, file)| check_file(file).is_ok()).count();
    let summary = format!("{} files: {accepted} accepted, {} refused.", files.len(), files.len() - accepted);
    assert_eq!(texts(&pieces, "p")[0], summary);
}

#[test]
fn totals_may_pass_what_64_bits_hold() {
    let most = |notation, strike| Leg { unit_size: 1_000, contracts: 100_000, strike, ..leg(notation) };
    // 128 times short at a mill and long at the highest strike, in one group.
    let legs: Vec<Leg> =
        (0..256).map(|i| if i % 2 == 0 { most("S1c", 1) } else { most("L1c", 99_999_999) }).collect();
    let mut sheet = placed(&legs, &[]);
    sheet.claim_margins().expect("a spread");
    let (file, margin) = (sheet.to_file().expect("a file"), sheet.claims[0].margin);
    let names: Vec<String> = (0..9).map(|number| format!("{number}.usm")).collect();
    let files: Vec<(&str, &[u8])> = names.iter().map(|name| (name.as_str(), file.as_slice())).collect();
    let total = 9 * i128::from(margin);
    assert!(total > i128::from(i64::MAX));
    let tables = tables(&pieces(body(&page_of("page-great-total", &files))));
    assert_eq!(table(&tables, "Contents").records()[9][2], amount(total));
}

#[test]
fn a_hundred_files_are_one_page() {
    let vertical = sample("iron-condor-in-two-groups.usm");
    let names: Vec<String> = (1..=100).map(|number| format!("sheet-{number}.usm")).collect();
    let files: Vec<(&str, &[u8])> = names.iter().map(|name| (name.as_str(), vertical.as_slice())).collect();
    let page = page_of("page-hundred", &files);
    let pieces = pieces(body(&page));
    assert_eq!(tags(&pieces, "svg").count(), 200);
    assert_eq!(texts(&pieces, "title").len(), 200);
    assert!(page.len() < 2_000_000, "{} bytes", page.len());
}

#[test]
fn what_cannot_be_read_is_told_on_the_page_and_by_the_status() {
    let folder = folder("page-unread");
    fs::write(folder.join("good.usm"), sample("vertical.usm")).expect("a file");
    fs::create_dir(folder.join("folder.usm")).expect("a folder");
    let (status, said) = told(&folder, &["none.usm", "good.usm", "folder.usm", "page.html"]);
    assert_eq!(status, Some(2));
    let lines: Vec<&str> = said.lines().collect();
    assert!(lines[0].starts_with("sheet: none.usm: cannot be read: "), "{said}");
    assert!(lines[1] == "sheet: folder.usm: is a folder without a file whose name ends in .usm", "{said}");
    assert_eq!(lines[2..], ["page.html: 1 accepted, 0 refused, 2 not read"]);
    let page = fs::read_to_string(folder.join("page.html")).expect("a page all the same");
    let pieces = pieces(body(&page));
    assert_eq!(texts(&pieces, "h2"), ["none.usm not read", "good.usm accepted", "folder.usm not read"]);
    assert!(texts(&pieces, "p").iter().any(|text| text.starts_with("none.usm: cannot be read: ")), "{page}");
}

#[test]
fn a_page_that_is_there_stays_unless_forced() {
    let folder = folder("page-kept");
    fs::write(folder.join("a.usm"), sample("vertical.usm")).expect("a file");
    fs::write(folder.join("b.usm"), sample("claim-one-mill-short.usm")).expect("a file");
    fs::write(folder.join("page.html"), "mine").expect("a file");
    let there = "sheet: page.html: is there already; --force overwrites it\n";
    assert_eq!(told(&folder, &["a.usm", "page.html"]), (Some(2), there.into()));
    assert_eq!(fs::read(folder.join("page.html")).expect("it stays"), b"mine");
    assert_eq!(told(&folder, &["a.usm", "page.html", "--force"]), (Some(0), String::new()));
    let refused = (Some(1), String::from("page.html: 1 accepted, 1 refused\n"));
    assert_eq!(told(&folder, &["a.usm", "b.usm", "page.html", "--force"]), refused);
    // Where the page's name was forgotten the last sheet is not lost, forced or not.
    for words in [&["a.usm", "b.usm"][..], &["a.usm", "b.usm", "--force"], &["a.usm", "new.usm"]] {
        let (status, said) = told(&folder, words);
        let name = words[1];
        let message = format!(
            "sheet: {name}: is the name of a sheet; behind the sheets comes the name of the page, as page.html\n"
        );
        assert_eq!((status, said), (Some(2), message));
    }
    assert_eq!(fs::read(folder.join("b.usm")).expect("it stays"), sample("claim-one-mill-short.usm"));
    let usage = "sheet: usage: sheet page FILE.. OUT [--force]\n";
    assert_eq!(told(&folder, &["a.usm"]), (Some(2), usage.into()));
}

#[test]
fn a_sheet_of_another_name_is_not_lost_either() {
    let folder = folder("page-over-sheet");
    let names = ["a.usm", "B.USM", "old", "new.html"];
    let files = ["vertical.usm", "vertical.usm", "vertical.usm", "two-accounts-joined.usm"].map(sample);
    for (name, file) in names.iter().zip(&files) {
        fs::write(folder.join(name), file).expect("a file");
    }
    let ending = "is the name of a sheet; behind the sheets comes the name of the page, as page.html";
    let mark = "is a sheet file, and is not written over; name another file for the page, as page.html";
    for (name, why) in [("B.USM", ending), ("old", mark), ("new.html", mark)] {
        let message = format!("sheet: {name}: {why}\n");
        assert_eq!(told(&folder, &["a.usm", name, "--force"]), (Some(2), message));
    }
    for (name, file) in names.iter().zip(&files) {
        assert!(fs::read(folder.join(name)).expect("it stays") == *file, "{name}");
    }
}

#[test]
fn the_page_goes_to_standard_output_too() {
    let folder = folder("page-output");
    fs::write(folder.join("a.usm"), sample("vertical.usm")).expect("a file");
    let output = run(&folder, &["a.usm", "-"]);
    assert_eq!(output.status.code(), Some(0));
    assert_eq!(
        String::from_utf8(output.stdout).expect("UTF-8"),
        page_of("page-same", &[("a.usm", &sample("vertical.usm"))])
    );
}
