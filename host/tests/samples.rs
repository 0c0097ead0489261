//! The committed samples are exactly what the program makes, and print what their table says.

#![forbid(unsafe_code)]

mod common;

use std::collections::BTreeMap;
use std::fs;
use std::path::{Path, PathBuf};

use usm::{
    holdings_of_list, leg_table, list_of_holdings, play, root_table, salvage_file, sentences, text, Refusal,
    Root, Salvaged, Sheet, LONGEST_LIST,
};
use usm_kit::both::{Calls, BOTH};
use usm_kit::repository;

fn committed() -> PathBuf {
    repository().join("samples")
}

fn files_in(folder: &Path) -> BTreeMap<String, Vec<u8>> {
    let entries =
        fs::read_dir(folder).expect("the folder is there").map(|entry| entry.expect("an entry").path());
    entries
        .filter(|path| path.is_file())
        .map(|path| {
            let name = path.file_name().expect("a name").to_string_lossy().into_owned();
            (name, fs::read(&path).expect("a file that can be read"))
        })
        .filter(|(name, _)| name != "README.md")
        .collect()
}

/// The rows `| name | line | what it shows |` of the tables in samples/README.md: of those that stand in a
/// folder, or of the sheet files.
fn table(folder: Option<&str>) -> BTreeMap<String, String> {
    let readme = fs::read_to_string(committed().join("README.md")).expect("samples/README.md");
    readme
        .lines()
        .filter_map(|row| {
            let cells: Vec<&str> = row.split('|').map(str::trim).collect();
            match cells.as_slice() {
                ["", name, line, _, ""] if name.starts_with('`') => {
                    Some((name.trim_matches('`').to_string(), line.trim_matches('`').to_string()))
                }
                _ => None,
            }
        })
        .filter(|(name, _)| name.split_once('/').map(|(before, _)| before) == folder)
        .collect()
}

/// The samples made anew, in a folder of the test's own.
fn made(test: &str) -> PathBuf {
    let made = common::folder(test);
    let status =
        common::program(env!("CARGO_BIN_EXE_usm_samples")).arg(&made).status().expect("usm_samples runs");
    assert!(status.success());
    made
}

#[test]
fn the_committed_samples_are_what_the_program_makes() {
    let (made, committed) = (files_in(&made("samples")), files_in(&committed()));
    assert_eq!(made.keys().collect::<Vec<_>>(), committed.keys().collect::<Vec<_>>());
    for (name, bytes) in &made {
        assert!(bytes == &committed[name], "{name} is not what usm_samples makes");
    }
}

/// The folder of fills: what the program makes of it, what the page says, and what playing gives.
#[test]
fn the_fills_make_todays_holdings_of_yesterdays() {
    let committed = committed().join("fills");
    assert_eq!(files_in(&made("samples-fills").join("fills")), files_in(&committed));
    let text = |name: &str| fs::read_to_string(committed.join(name)).expect(name);
    let yesterday = text::parse(&text("yesterday.txt")).expect("holdings").holdings;
    let fills = text::parse_fills(&text("fills.txt")).expect("fills");
    let today = text::parse(&text("today.txt")).expect("holdings").holdings;
    let played = play(&yesterday, &fills).expect("a day");
    assert_eq!(played.holdings, today);
    let sentences: Vec<String> = played
        .refused
        .iter()
        .map(|refusal| format!("{} {}", refusal.number, sentences::of_fills(&yesterday, &fills, refusal)))
        .collect();
    assert_eq!(sentences, text("refused.txt").lines().collect::<Vec<&str>>());
}

/// What a call answers for a file of the folder of lists, as the table has it: a list that is read by the roots,
/// other roots for the list, or holdings that are to be listed.
fn answer(calls: &Calls, name: &str, files: &BTreeMap<String, Vec<u8>>) -> String {
    let text = |name: &str| String::from_utf8(files[name].clone()).expect("UTF-8");
    let roots = |name: &str| -> Vec<u8> { root_table(&text::parse_roots(&text(name)).expect("roots")) };
    let refused = |refusal: Refusal| refusal.line().trim_end().to_string();
    let held = || leg_table(&text::parse(&text(name)).expect("holdings").holdings);
    let import = |roots: &[u8], list: &str| {
        let records = (calls.import)(roots, &files[list], &mut vec![0; 256 * 32]);
        records.map_or_else(refused, |records| format!("{records} records"))
    };
    match name {
        "roots.txt" | "list.txt" => import(&roots("roots.txt"), "list.txt"),
        _ if name.starts_with("roots-") => import(&roots(name), "list.txt"),
        _ if name.starts_with("held-") || name == "holdings.txt" => {
            let bytes = (calls.export)(&roots("roots.txt"), &held(), &mut vec![0; LONGEST_LIST]);
            bytes.map_or_else(refused, |bytes| format!("{bytes} bytes"))
        }
        _ => import(&roots("roots.txt"), name),
    }
}

#[test]
fn every_list_has_the_answer_in_the_table() {
    let folder = committed().join("lists");
    let files = files_in(&folder);
    assert_eq!(files_in(&made("samples-lists").join("lists")), files);
    let table = table(Some("lists"));
    let names: Vec<String> = files.keys().map(|name| format!("lists/{name}")).collect();
    assert_eq!(table.keys().collect::<Vec<_>>(), names.iter().collect::<Vec<_>>(), "a row for each file");
    for (name, line) in &table {
        for calls in &BOTH {
            assert_eq!(&answer(calls, &name["lists/".len()..], &files), line, "{name}, {}", calls.name);
        }
    }
}

#[test]
fn the_list_and_the_holdings_are_one_another() {
    let folder = committed().join("lists");
    let text = |name: &str| fs::read_to_string(folder.join(name)).expect(name);
    let roots: Vec<Root> = text::parse_roots(&text("roots.txt")).expect("roots");
    let holdings = holdings_of_list(&roots, text("list.txt").as_bytes()).expect("holdings");
    assert_eq!(text::show_holdings(&holdings), text("holdings.txt"));
    assert_eq!(list_of_holdings(&roots, &holdings), Ok(text("list.txt").into_bytes()));
}

/// The folder of salvage: the damaged file, the sound one, and what is said of the dropped block.
#[test]
fn the_file_with_one_bad_block_is_salvaged() {
    let files = files_in(&committed().join("salvage"));
    assert_eq!(files_in(&made("samples-salvage").join("salvage")), files);
    let (damaged, sound) = (&files["one-bad-block.usm"], &files["salvaged.usm"]);
    let Salvaged { file, dropped } = salvage_file(damaged).expect("four blocks are sound");
    assert_eq!(&file, sound);
    let told = sentences::of_dropped(damaged, &dropped);
    let told: Vec<String> = told.into_iter().chain(sentences::of_left_out(damaged, &dropped)).collect();
    let dropped = String::from_utf8(files["dropped.txt"].clone()).expect("UTF-8");
    assert_eq!(told, dropped.lines().collect::<Vec<&str>>());
    for calls in &BOTH {
        assert_eq!((calls.file_line)(damaged), "REFUSE 2 0 3\n", "{}", calls.name);
        assert_eq!((calls.file_line)(sound), "REFUSE 11 2 1\n", "{}", calls.name);
    }
}

#[test]
fn every_sample_prints_the_line_in_the_table() {
    let (table, files) = (table(None), files_in(&committed()));
    let sheets: Vec<&String> = files.keys().filter(|name| name.ends_with(".usm")).collect();
    assert!(sheets.len() >= 12, "a dozen samples");
    assert_eq!(sheets, table.keys().collect::<Vec<_>>(), "the table has one row for each sample");
    for (name, line) in &table {
        for calls in &BOTH {
            assert_eq!((calls.file_line)(&files[name]), format!("{line}\n"), "{name}, {}", calls.name);
        }
    }
}

#[test]
fn the_text_of_a_sample_makes_its_file() {
    let files = files_in(&committed());
    let texts: Vec<&String> = files.keys().filter(|name| name.ends_with(".txt")).collect();
    assert!(texts.len() >= 12);
    for name in texts {
        let text = String::from_utf8(files[name].clone()).expect("UTF-8");
        let sheet = text::parse(&text).unwrap_or_else(|error| panic!("{name}: {error}"));
        let file = &files[&name.replace(".txt", ".usm")];
        assert_eq!(&sheet.to_file().expect("a sheet in range"), file, "{name}");
        assert_eq!(Sheet::from_file(file), Ok(sheet), "{name}");
    }
}

#[test]
fn the_program_overwrites_nothing_unasked() {
    let made = common::folder("samples-kept");
    let kept = made.join("box.usm");
    fs::write(&kept, "mine").expect("a file");
    let run = |arguments: &[&str]| {
        common::program(env!("CARGO_BIN_EXE_usm_samples"))
            .arg(&made)
            .args(arguments)
            .output()
            .expect("usm_samples runs")
    };
    let refused = run(&[]);
    assert_eq!(refused.status.code(), Some(2));
    assert!(String::from_utf8_lossy(&refused.stderr).contains("box.usm"));
    assert_eq!(fs::read(&kept).expect("still there"), b"mine");
    assert!(run(&["--force"]).status.success());
    assert_ne!(fs::read(&kept).expect("overwritten"), b"mine");
}
