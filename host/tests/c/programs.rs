//! What the programs of `c/` print.

use crate::compiled::{assert_prints, c_compiler, cxx_compiler, run, C, CXX};
use crate::header::constant;

pub const EXAMPLE: &str = "\
table 1: 4 records in range
table 2: 4 records in range
group 1 margin 1000000
group 2 margin 500000
group 2 by itself: margin 500000
usm_cash: refusal 21, table 2, place 1
cash required 1000000
strike 50000 net -1000000
strike 60000 net 0
usm_check_sheet: accepted, groups 2, total 1500000 mills, work 8
usm_check_file: accepted, groups 2, total 1500000 mills, work 8
file of 1536 bytes: ACCEPT 2 1500000
GROUP 1 1000000
50000 -1000000
60000 0
GROUP 2 500000
65000 0
70000 -500000
moved to the mark USM2 with account 4711, and back: the same
read back 4 + 4 + 2 records, the same; form 1, account 0
after the day 4 records, 1 fills refused
fill 1: refusal 18
usm_check_sheet: refusal 15, table 2, place 0
1 long marked as paid, byte 25 is 1
usm_check_sheet: accepted, groups 0, total 0 mills, work 0
a list of 2 holdings, and the same list again
usm_import: refusal 24, table 6, place 0
salvaged a file of 1024 bytes
block 1 dropped: 2
usm_salvage: refusal 2, table 0, place 0
ten binaries short: margin 700000
with eight long beside them: margin 140000
usm_binary_margin: refusal 25, table 0, place 0
usm_margin: refusal 6, table 2, place 3
usm_check_sheet: refusal 16, table 3, place 2
usm_write_file: refusal 1, table 0, place 0
";

const CXX_SHEET: &str = "\
a sheet: 0 1 1000000 4
no tables: 0 0 0 0
no placement: 14 1 0 0
no holdings: 14 2 0 0
no file: 1 0 0 0
no room: 17 0 1 0
a day: 0 2 1 0
  fill 1: 18
no fills: 0 2 0 0
no holdings: 0 1 2 0
  fill 0: 18
  fill 1: 18
threads stay apart
";

#[test]
fn the_c_example_prints_what_it_says() {
    assert_prints(&run(&c_compiler(), C, "example.c"), EXAMPLE);
}

#[test]
fn empty_slices_may_be_null() {
    let printed = "229 calls with empty slices, 0 wrong\n";
    assert_prints(&run(&c_compiler(), C, "empty.c"), printed);
    if let Some(compiler) = cxx_compiler() {
        assert_prints(&run(&compiler, CXX, "empty.c"), printed);
    }
}

#[test]
fn vectors_are_tables_and_threads_stay_apart() {
    if let Some(compiler) = cxx_compiler() {
        assert_prints(&run(&compiler, CXX, "sheet.cpp"), CXX_SHEET);
    }
}

#[test]
fn no_call_needs_more_stack_than_the_header_says() {
    let output = run(&c_compiler(), C, "stack.c");
    assert!(output.status.success());
    let printed = String::from_utf8_lossy(&output.stdout).into_owned();
    let used: u64 = printed.trim().parse().expect("a number of bytes");
    println!("the neediest call used {used} bytes of stack");
    // The three tables of a file's check take more than 17,000 bytes: less was no measurement.
    assert!((10_000..=constant("USM_STACK_BYTES")).contains(&used), "{used}");
}
