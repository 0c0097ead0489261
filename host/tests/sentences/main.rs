//! Every sentence about a refusal, against a table that is compared whole: `sentences.txt`. After a change
//! that is meant, `USM_WRITE_SENTENCES=1` writes the table again, to be read through.

#![forbid(unsafe_code)]

mod binaries;
mod entry;
mod fields;
mod files;
mod fills;
mod salvage;
mod sheets;
mod symbols;

use std::collections::BTreeSet;
use std::fs;

use usm::{
    check_file, move_to_new, move_to_old, sentences, Form, Origin, Reason, Refusal, Sheet, BLOCK_BYTES,
    LONGEST_FILE,
};

use entry::{entry, Case};
use usm_kit::repository;

/// The sentences of refusals by themselves, at places that count from 0 and groups that count from 1.
fn short() -> String {
    let tables: [&[u64]; 24] = [
        &[0],
        &[0],
        &[0],
        &[1, 2, 3, 4, 6],
        &[3, 2],
        &[2],
        &[2],
        &[2],
        &[2],
        &[2],
        &[2],
        &[2],
        &[2],
        &[1, 2],
        &[2],
        &[3],
        &[0, 1, 2, 3, 4, 6],
        &[4],
        &[1, 4],
        &[0],
        &[2],
        &[6],
        &[5],
        &[6, 1],
    ];
    let refusals = (1..=24).zip(tables).flat_map(|(number, tables)| {
        tables.iter().map(move |table| Refusal::new(number, *table, if number == 1 { 0 } else { 2 }))
    });
    refusals.map(|refusal| entry("by itself", &refusal, &refusal.to_string())).collect()
}

fn of_files(cases: &[Case]) -> String {
    let entries = cases.iter().map(|(name, file)| {
        let refusal = check_file(file).expect_err(name);
        entry(name, &refusal, &sentences::of_file(file, &refusal))
    });
    entries.collect()
}

/// Groups that are spreads and not fit for a cash account.
fn of_cash() -> String {
    let entries = sheets::unfit().into_iter().map(|(name, sheet)| {
        let refusal = sheet.cash(1).expect_err(name);
        entry(&format!("cash of {name}"), &refusal, &sentences::of_sheet(&sheet, &refusal))
    });
    entries.collect()
}

fn of_groups() -> String {
    let sheet = sheets::no_spread();
    let entries = [0, 1, 2, 33, u64::MAX].map(|group| {
        let refusal = sheet.margin(group).expect_err("no spread");
        entry(&format!("margin of group {group}"), &refusal, &sentences::of_sheet(&sheet, &refusal))
    });
    entries.concat()
}

/// Files that are not moved: of the form that is asked for, of two accounts, and to no account.
fn of_moves() -> String {
    let [old, seven, eight] =
        [0, 7, 1 << 40].map(|account| Sheet { account, ..sheets::accepted() }.to_file().expect("a file"));
    let joined = [&seven[..BLOCK_BYTES], &eight[BLOCK_BYTES..]].concat();
    let moved = |name: &str, file: &[u8], to: Origin| {
        let mut out = vec![0; LONGEST_FILE];
        let answer = match to.form {
            Form::New => move_to_new(file, to.account, &mut out),
            Form::Old => move_to_old(file, &mut out),
        };
        let refusal = answer.expect_err(name);
        entry(&format!("move of {name}"), &refusal, &sentences::of_move(file, to, &refusal))
    };
    [
        moved("the old form to the old", &old, Origin::OLD),
        moved("the new form to the new", &seven, Origin::new(9)),
        moved("a great account to the new form", &eight, Origin::new(9)),
        moved("the old form to account 0", &old, Origin::new(0)),
        moved("two joined accounts to the new form", &joined, Origin::new(9)),
        moved("two joined accounts to account 0", &joined, Origin::new(0)),
        moved("two joined accounts to the old form", &joined, Origin::OLD),
        moved("a text", b"holdings\n", Origin::new(9)),
    ]
    .concat()
}

fn cases() -> Vec<Case> {
    [
        files::sizes(),
        files::strangers(),
        files::blocks(),
        fields::legs(),
        fields::claims(),
        sheets::groups(),
        sheets::rules(),
    ]
    .concat()
}

#[test]
fn every_sentence_is_that_of_the_table() {
    let of_calls = [of_groups(), of_cash(), of_moves()].concat();
    let of_others = [fills::sentences(), symbols::sentences(), salvage::sentences(), binaries::sentences()];
    let found = [short(), of_files(&cases()), of_calls, of_others.join("\n")].join("\n");
    let table = repository().join("host/tests/sentences/sentences.txt");
    if std::env::var_os("USM_WRITE_SENTENCES").is_some() {
        fs::write(&table, &found).expect("the table is written");
    }
    let expected = fs::read_to_string(&table).expect("the table of sentences");
    for (found, expected) in found.lines().zip(expected.lines()) {
        assert_eq!(found, expected);
    }
    assert_eq!(found, expected);
}

#[test]
fn every_reason_that_a_file_can_have_is_in_the_table() {
    let numbers: BTreeSet<u64> =
        cases().iter().map(|(name, file)| check_file(file).expect_err(name).number).collect();
    let of_other_calls = [
        Reason::NoRoom,
        Reason::MoreClosedThanHeld,
        Reason::TooMuchHeld,
        Reason::NotFitForCash,
        Reason::LineMalformed,
        Reason::RootsIllFormed,
        Reason::NotInRoots,
        Reason::ExpiryBeforeValuation,
    ];
    let reasons = Reason::ALL.into_iter().filter(|reason| !of_other_calls.contains(reason));
    assert_eq!(numbers, reasons.map(Reason::number).collect());
}

#[test]
fn a_refusal_of_something_else_has_its_own_sentence() {
    // Nothing of what these name is in the file, or they are none of a file's refusals.
    let file = sheets::accepted().to_file().expect("a file");
    for number in 0..=26 {
        for table in 0..=7 {
            for place in [0, 1, 39, u64::MAX] {
                let refusal = Refusal::new(number, table, place);
                assert!(!sentences::of_file(&file, &refusal).is_empty());
                assert!(!sentences::of_file(&[], &refusal).is_empty());
            }
        }
    }
    let unheld = Refusal::new(14, 1, 99);
    assert_eq!(sentences::of_file(&file, &unheld), unheld.to_string());
}
