//! What is timed: ordinary sheets and files, refused ones, and some that were made to be slow.

use usm::{Sheet, BLOCK_BYTES, MOST_FILLS, MOST_LEGS};

use crate::calls::{
    binary_margin, binary_pair, cash, check_file, check_files, check_sheet, file_table, margin, margins,
    mark_paid, move_to_new, move_to_old, play_fills, read_file, salvage, worksheet, write_file, ACCOUNT,
};
use crate::crafted;
use crate::fills::{crowded, day, held};
use crate::inputs::{long_box, sheet, typical_sheets};
use crate::row::{row, Row};

fn file_of(sheet: &Sheet) -> Vec<u8> {
    sheet.to_file().expect("a sheet to be timed can be written")
}

/// The sheet's file with a byte of one block changed.
fn damaged(sheet: &Sheet, block: usize) -> Vec<u8> {
    let mut file = file_of(sheet);
    file[block * BLOCK_BYTES + 100] ^= 1;
    file
}

/// What any reader of a file has to do at least, on both sides alike.
pub fn floor() -> Row {
    row("copy of a file's bytes (39 blocks)", |_| {
        let file = file_of(&sheet(32, 8));
        let mut copy = vec![0; file.len()];
        move || {
            copy.copy_from_slice(&file);
            u64::from(copy[copy.len() / 2])
        }
    })
}

/// Typical files, by which sheets a second are counted.
pub fn nightly() -> Row {
    let files: Vec<Vec<u8>> = typical_sheets(1_000).iter().map(file_of).collect();
    check_files("check file, 1,000 typical files in turn", &files)
}

pub fn rows() -> Vec<Row> {
    let mut rows = ordinary();
    rows.extend(refused());
    rows.extend(made_to_be_slow());
    rows
}

fn ordinary() -> Vec<Row> {
    let (small, typical, full, wide) = (sheet(1, 4), sheet(12, 5), sheet(32, 8), sheet(1, 256));
    let new = Sheet { account: ACCOUNT, ..full.clone() };
    vec![
        check_sheet("check sheet, small (4 legs, 1 group)", &small.tables()),
        check_sheet("check sheet, typical (60 legs, 12 groups)", &typical.tables()),
        check_sheet("check sheet, full (256/256/32)", &full.tables()),
        check_sheet("check sheet, one group of 256 strikes", &wide.tables()),
        margin("margin of a European long box (4 legs)", &long_box(1)),
        margin("margin of a European long box (256 legs)", &long_box(MOST_LEGS / 4)),
        cash("cash required of 4 legs", &small.placement),
        cash("cash required of 256 strikes", &wide.placement),
        margins("margins of one group of 256 strikes", &wide),
        margins("margins of 32 groups of 8", &full),
        margins("margins of one group of one strike", &crafted::one_strike()),
        worksheet("worksheet of 256 strikes", &wide),
        worksheet("worksheet of 4 strikes", &small),
        check_file("check file, small (3 blocks)", &file_of(&small)),
        check_file("check file, typical (9 blocks)", &file_of(&typical)),
        check_file("check file, full (39 blocks)", &file_of(&full)),
        file_table("table of a file, small (3 blocks)", &file_of(&small)),
        file_table("table of a file, typical (9 blocks)", &file_of(&typical)),
        file_table("table of a file, full (39 blocks)", &file_of(&full)),
        file_table("table of one group of 256 strikes", &file_of(&wide)),
        read_file("read file, 39 blocks", &file_of(&full)),
        write_file("write file, 39 blocks", &full),
        check_file("check file, full, new form", &file_of(&new)),
        read_file("read file, 39 blocks, new form", &file_of(&new)),
        write_file("write file, 39 blocks, new form", &new),
        move_to_new("move 39 blocks to the new form", &file_of(&full)),
        move_to_old("move 39 blocks to the old form", &file_of(&new)),
        salvage("salvage 39 blocks, one damaged", &damaged(&full, 20)),
        mark_paid("mark 256 unplaced longs as paid", &held(MOST_LEGS)),
        play_fills("play 60 fills over 60 records", &held(60), &day(60, 60)),
        play_fills("play 1,024 fills over 256 records", &held(MOST_LEGS), &day(MOST_LEGS, MOST_FILLS)),
        binary_margin("margin of a binary, 40 cells in turn"),
        binary_pair("pair of binaries, 40 in turn"),
    ]
}

fn refused() -> Vec<Row> {
    let full = sheet(32, 8);
    let mut bad_field = full.tables();
    bad_field.holdings[2] = 9; // the side of record 0
    let mut wrong_claim = full.clone();
    wrong_claim.claims[31].margin ^= 1;
    vec![
        check_sheet("refused early: bad field in holding 0 (4)", &bad_field),
        check_sheet("refused late: claim 32 a mill off (16)", &wrong_claim.tables()),
        check_file("refused early: block 0 damaged (2)", &damaged(&full, 0)),
        check_file("refused late: block 38 damaged (2)", &damaged(&full, 38)),
        check_sheet("refused: first holding uneven (14)", &crafted::uneven_at(0).tables()),
        check_sheet("refused: last holding uneven (14)", &crafted::uneven_at(MOST_LEGS - 1).tables()),
    ]
}

fn made_to_be_slow() -> Vec<Row> {
    vec![
        check_sheet("crafted: 256 lines, all different", &crafted::all_different().tables()),
        check_sheet("crafted: 256 records of one line", &crafted::one_line().tables()),
        check_sheet("crafted: 256 lines of one bucket", &crafted::one_bucket().tables()),
        check_sheet("crafted: 512 lines, unit sizes alone (14)", &crafted::sizes_uneven().tables()),
        check_sheet("crafted: one strike, 256 legs", &crafted::one_strike().tables()),
        check_sheet("crafted: the worst found", &crafted::worst_found().tables()),
        play_fills("crafted: 1,024 fills, first rows leave", &held(MOST_LEGS), &crowded()),
    ]
}
