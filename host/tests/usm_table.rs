//! The proved program `usm_table`: the table it prints for what stands on its standard input.

#![forbid(unsafe_code)]

mod common;

use std::time::Duration;

use usm::text;
use usm_kit::accounts::fullest;
use usm_kit::block::LONGEST_FILE;
use usm_kit::model;

/// The program prints this table, and so does the model for the same bytes.
#[track_caller]
fn assert_table(input: &[u8], table: &str) {
    let printed = common::proved::printed("usm_table", &[input], Duration::ZERO);
    assert_eq!(printed, table, "{} bytes", input.len());
    assert_eq!(model::file_table(input), table, "the model, {} bytes", input.len());
}

/// The file of a sheet that is written as text.
fn file_of(sheet: &str) -> Vec<u8> {
    text::parse(sheet).expect("a sheet").to_file().expect("a file")
}

#[test]
fn p1_is_shown_as_document_02_has_it() {
    let sheet = "holdings
      long  1 call 60.000 2011-05-21 unit 100 underlying 7 american listed
      short 1 call 50.000 2011-05-21 unit 100 underlying 7 american listed
    placement
      group 1  long  1 call 60.000 2011-05-21 unit 100 underlying 7 american listed
      group 1  short 1 call 50.000 2011-05-21 unit 100 underlying 7 american listed
    claims
      claim 1 1000000
    ";
    assert_table(&file_of(sheet), "GROUP 1 1000000\n50000 0\n60000 -1000000\n");
    assert_table(&file_of(&sheet.replace("1000000", "999999")), "REFUSE 16 3 1\n");
}

#[test]
fn a_sheet_without_groups_prints_nothing() {
    let long = "long 1 call 60.000 2011-05-21 unit 100 underlying 7 american listed paid";
    assert_table(&file_of(&format!("holdings\n {long}\nplacement\n unplaced {long}\n")), "");
}

#[test]
fn every_sample_has_the_model_s_table() {
    for (name, file) in common::proved::samples() {
        let printed = common::proved::printed("usm_table", &[&file], Duration::ZERO);
        assert_eq!(printed, model::file_table(&file), "{name}");
    }
}

#[test]
fn a_full_file_is_read_to_its_end() {
    let mut file = fullest().to_file().expect("a file");
    let table = model::file_table(&file);
    assert_eq!((table.lines().count(), table.matches("GROUP").count()), (32 + 256, 32));
    assert_table(&file, &table);
    file[LONGEST_FILE - 1] ^= 1;
    assert_table(&file, "REFUSE 2 0 38\n");
    file[LONGEST_FILE - 1] ^= 1;
    file.push(0);
    assert_table(&file, "REFUSE 1 0 0\n");
}

#[test]
fn nothing_at_all_is_1() {
    assert_table(&[], "REFUSE 1 0 0\n");
}
