//! `--json`: one object a file, and docs/JSON.md with all their keys.

use std::ffi::OsStr;
use std::fs;
use std::os::unix::ffi::OsStrExt;
use std::path::Path;

use usm::{Leg, Sheet};
use usm_kit::accounts::{in_group, leg, placed};
use usm_kit::block::BLOCK_BYTES;

use crate::{folder, run, run_named, told, VERTICAL};

#[test]
fn every_file_has_an_object_with_the_same_keys() {
    let folder = folder("tool-json");
    let sheet = |claim| Sheet { account: u64::MAX, ..placed(&[leg("L60c"), leg("S50c")], &[claim]) };
    let file = |claim| sheet(claim).to_file().expect("a file");
    let names = [&b"good.usm"[..], b"\"a\\\n\x1b[2J.usm", b"\xff.usm", b"none"].map(OsStr::from_bytes);
    for (name, claim) in names.iter().zip([1_000_000, 1, 1_000_000]) {
        fs::write(folder.join(name), file(claim)).expect("a file");
    }
    let mut arguments: Vec<&OsStr> = vec!["check".as_ref(), "--json".as_ref()];
    arguments.extend(names);
    let (status, objects, _) = told(run_named(&folder, &arguments, b""));
    assert_eq!(status, 2);
    let accepted = r#""form":"new","account":18446744073709551615,"verdict":"accepted","groups":1,"total":1000000,"margins":[1000000],"work":4,"refusal":null,"error":null}"#;
    let expected = [
        &format!(r#"{{"file":"good.usm",{accepted}"#),
        r#"{"file":"\"a\\\u000a\u001b[2J.usm","form":"new","account":18446744073709551615,"verdict":"refused","groups":null,"total":null,"margins":null,"work":0,"refusal":{"number":16,"table":3,"place":1,"sentence":"group 1 claims $0.001 (1 mills); its margin is $1,000.000 (1000000 mills)"},"error":null}"#,
        &format!("{{\"file\":\"\u{FFFD}.usm\",\"file_hex\":\"ff2e75736d\",{accepted}"),
        r#"{"file":"none","form":null,"account":null,"verdict":"not read","groups":null,"total":null,"margins":null,"work":null,"refusal":null,"error":"none: cannot be read: No such file or directory (os error 2)"}"#,
    ];
    assert_eq!(objects.lines().collect::<Vec<&str>>(), expected);
    assert_keys_on_page("check", &objects.replace("\"file_hex\":", ""));
}

#[test]
fn the_place_is_the_leg_and_the_sentence_has_its_text() {
    let folder = folder("tool-json-leg");
    let early = Leg { expiry: 20100522, ..leg("L70c") };
    let legs = [leg("L60c"), in_group(2, early), leg("S50c"), in_group(2, leg("S60c"))];
    let file = placed(&legs, &[1_000_000, 0]).to_file().expect("a file");
    let arguments = ["check", "--json", "-"].map(OsStr::new);
    let (status, object, _) = told(run_named(&folder, &arguments, &file));
    let refusal = "{\"number\":13,\"table\":2,\"place\":3,\"sentence\":\"the 4th record of the placement \
        (`group 2 short 1 call 60.000 2011-05-21 unit 100 underlying 7 american listed`): this short expires on \
        2011-05-21, after the long of group 2 that expires on 2010-05-22, the 2nd record \
        (`group 2 long 1 call 70.000 2010-05-22 unit 100 underlying 7 american listed`)\"}";
    assert!(object.contains(refusal), "{object}");
    assert_eq!(status, 1);
}

/// The keys of a command's object, those inside of others too, stand in its section of docs/JSON.md or in one for all.
#[track_caller]
fn assert_keys_on_page(command: &str, object: &str) {
    let path = Path::new(env!("CARGO_MANIFEST_DIR")).join("../docs/JSON.md");
    let page = fs::read_to_string(path).expect("a page");
    let of_command =
        |section: &&str| section.lines().next().map_or(false, |head| head.contains(&format!("`{command}`")));
    let for_all = |section: &&str| ["Names, form", "A refusal"].iter().any(|head| section.starts_with(head));
    let sections: Vec<&str> =
        page.split("\n## ").filter(|section| of_command(section) || for_all(section)).collect();
    assert_eq!(sections.len(), 3, "{command}");
    for (at, _) in object.match_indices("\":") {
        let key = object[..at].rsplit('"').next().expect("a key");
        assert!(sections.iter().any(|section| section.contains(&format!("`{key}`"))), "{command}: {key}");
    }
}

/// One line of standard output, and nothing for people.
#[track_caller]
fn assert_object(folder: &Path, arguments: &[&str], input: &[u8], status: i32, object: &str) {
    assert_keys_on_page(arguments[0], object);
    let expected = (status, format!("{object}\n"), String::new());
    assert_eq!(told(run(folder, arguments, input)), expected, "{arguments:?}");
}

#[test]
fn margins_and_cash_have_an_entry_for_each_group() {
    let folder = folder("tool-json-groups");
    let legs = [leg("L60c"), leg("S50c"), in_group(2, leg("S50c"))];
    let file = Sheet { account: 1 << 40, ..placed(&legs, &[]) }.to_file().expect("a file");
    let no_spread = r#"{"group":2,"KEY":null,"refusal":{"number":11,"table":2,"place":2,"sentence":"group 2 has 0 long call units and 100 short call units; they must be equal (a leg's units are its contracts times its unit size)"}}"#;
    let margin = r#"{"file":"-","form":"new","account":1099511627776,"groups":[{"group":1,"margin":1000000,"refusal":null},"#;
    let margins = format!("{margin}{}]}}", no_spread.replace("KEY", "margin"));
    assert_object(&folder, &["margins", "--json", "-"], &file, 1, &margins);
    let (status, object, _) = told(run(&folder, &["cash", "-", "--json"], &file));
    let unfit =
        r#"{"group":1,"cash":null,"refusal":{"number":21,"table":2,"place":1,"sentence":"group 1 is not fit"#;
    assert!(status == 1 && object.contains(unfit), "{object}");
    assert_keys_on_page("cash", &object);
    assert!(object.ends_with(&format!("{}]}}\n", no_spread.replace("KEY", "cash"))), "{object}");
    let none = placed(&[in_group(0, leg("L60c"))], &[]).to_file().expect("a file");
    let empty = r#"{"file":"-","form":"old","account":null,"groups":[]}"#;
    assert_object(&folder, &["margins", "--json", "-"], &none, 0, empty);
}

#[test]
fn a_worksheet_has_its_strikes() {
    let folder = folder("tool-json-worksheet");
    let file = placed(&[leg("L60c"), leg("S50c")], &[]).to_file().expect("a file");
    let rows = r#"{"file":"-","form":"old","account":null,"group":1,"margin":1000000,"strikes":[{"strike":50000,"net":0},{"strike":60000,"net":-1000000}],"refusal":null}"#;
    assert_object(&folder, &["worksheet", "--json", "-", "1"], &file, 0, rows);
    let none = r#"{"file":"-","form":"old","account":null,"group":2,"margin":null,"strikes":null,"refusal":{"number":6,"table":2,"place":2,"sentence":"group 2 has no leg in the placement"}}"#;
    assert_object(&folder, &["worksheet", "--json", "-", "2"], &file, 1, none);
    // What could not be done has no object.
    let (status, printed, message) = told(run(&folder, &["worksheet", "--json", "none", "2"], b""));
    assert_eq!((status, printed.as_str()), (2, ""));
    assert!(message.starts_with("sheet: none: cannot be read: "), "{message}");
}

#[test]
fn a_played_day_has_its_refused_fills() {
    let folder = folder("tool-json-play");
    let leg = "call 60.000 2011-05-21 unit 100 underlying 7 american listed";
    fs::write(folder.join("fills.txt"), format!("fills\n close long 4 {leg}\n open short 1 {leg}\n"))
        .expect("a text");
    let held = format!("account 7\nholdings\n long 3 {leg}\n");
    let object = format!(
        r#"{{"file":"-","fills":"fills.txt","out":"out.txt","account":7,"records":2,"played":1,"refused":[{{"number":18,"table":4,"place":0,"sentence":"the 1st fill (`close long 4 {leg}`) closes 4 contracts, and 3 are held"}}]}}"#
    );
    assert_object(&folder, &["play", "-", "fills.txt", "out.txt", "--json"], held.as_bytes(), 1, &object);
    let (status, printed, message) =
        told(run(&folder, &["play", "-", "fills.txt", "-", "--json"], held.as_bytes()));
    let no_place = "sheet: with --json standard output has the object; name a file for OUT\n";
    assert_eq!((status, printed.as_str(), message.as_str()), (2, "", no_place));
}

#[test]
fn an_imported_list_has_its_records_or_its_refused_lines() {
    let folder = folder("tool-json-import");
    fs::write(folder.join("roots.txt"), "AAPL american listed unit 100 physical underlying 8\n")
        .expect("a text");
    let good = "AAPL  110521C00060000 L 10\n";
    let object = r#"{"file":"-","roots":"roots.txt","out":"out.csv","records":1,"refused":[],"more":0}"#;
    assert_object(&folder, &["import", "roots.txt", "-", "out.csv", "--json"], good.as_bytes(), 0, object);
    let bad = format!("{good}{}", "AAPL\n".repeat(21));
    let (status, object, said) =
        told(run(&folder, &["import", "roots.txt", "-", "no.txt", "--json"], bad.as_bytes()));
    assert_eq!((status, said.as_str(), folder.join("no.txt").exists()), (1, "", false));
    let start = r#"{"file":"-","roots":"roots.txt","out":null,"records":null,"refused":[{"number":22,"table":6,"place":1,"sentence":"line 2: AAPL: "#;
    assert!(object.starts_with(start) && object.ends_with("],\"more\":1}\n"), "{object}");
    assert_eq!(object.matches("\"number\":22").count(), 20);
    let roots = r#"{"file":"list","roots":"-","out":null,"records":null,"refused":[{"number":23,"table":5,"place":0,"sentence":"the table of roots is empty; it has 1 to 256 roots"}],"more":0}"#;
    fs::write(folder.join("list"), good).expect("a list");
    assert_object(&folder, &["import", "-", "list", "no.txt", "--json"], b"", 1, roots);
}

#[test]
fn a_salvaged_file_has_what_was_dropped_and_its_verdict() {
    let folder = folder("tool-json-salvage");
    let mut file = run(&folder, &["make", "-", "-"], format!("account 9\n{VERTICAL}").as_bytes()).stdout;
    let kept = r#"{"file":"-","out":"out.usm","form":"new","account":9,"blocks":3,"dropped":[],"left_out":null,"verdict":"accepted","groups":1,"total":1000000,"margins":[1000000],"work":4,"refusal":null,"error":null}"#;
    assert_object(&folder, &["salvage", "--json", "-", "out.usm"], &file, 0, kept);
    file[2 * BLOCK_BYTES + 40] ^= 1;
    let dropped = r#"{"file":"-","out":"out.usm","form":"new","account":9,"blocks":3,"dropped":[{"block":2,"number":2,"sentence":"the 3rd of 3 blocks was dropped: its check sums differ (2)"}],"left_out":"left out: 1 claim","verdict":"refused","groups":null,"total":null,"margins":null,"work":0,"refusal":{"number":5,"table":2,"place":0,"sentence":"the 1st record of the placement (`group 1 long 1 call 60.000 2011-05-21 unit 100 underlying 7 american listed`) is in group 1, but there is no claim"},"error":null}"#;
    assert_object(&folder, &["salvage", "--json", "-", "out.usm", "--force"], &file, 1, dropped);
}
