//! `binary` and `pair`: what credit event binaries need, and the cells that say so.

use std::path::Path;

use usm::numbers::dollars;
use usm::{binary_margin, Side, SPREADS, TIMES};

use crate::{run, told};

/// The tool, told in words that stand in one line. It reads and writes no file, so any folder will do.
fn say(command: &str) -> (i32, String, String) {
    let words: Vec<&str> = command.split_whitespace().collect();
    told(run(Path::new(env!("CARGO_MANIFEST_DIR")), &words, b""))
}

#[track_caller]
fn assert_printed(command: &str, text: &str) {
    assert_eq!(say(command), (0, text.into(), String::new()), "{command}");
}

#[test]
fn a_position_is_told_with_its_row_and_its_column() {
    assert_printed(
        "binary short spread 250 valued 20110315 expires 20160620 contracts 10",
        "short: 10 contracts, margin $700.000 (700000 mills): 7% of $1,000.000 each, spread 100 - 300, \
         over 3 to 7 years\n",
    );
    assert_printed(
        "binary long spread 0 valued 2012-02-29 expires 2013-02-28 contracts 1",
        "long: 1 contract, margin $5.000 (5000 mills): 0.5% of $1,000.000 each, spread 0 - 100, 1 year or less\n",
    );
    assert_printed(
        "binary long spread 700 valued 20110315 expires 20140316 contracts 100000",
        "long: 100,000 contracts, margin $12,500,000.000 (12500000000 mills): 12.5% of $1,000.000 each, \
         spread 700 & above, over 3 to 7 years\n",
    );
}

/// In every cell, just past the edge below it and just before the one above.
#[test]
fn the_percentage_that_is_shown_explains_the_amount() {
    const LOWEST: [(u64, u64); 5] = [(0, 99), (100, 299), (300, 499), (500, 699), (700, 100_000)];
    const EXPIRIES: [(u64, u64); 4] =
        [(20110315, 20120315), (20120316, 20140315), (20140316, 20180315), (20180316, 20991231)];
    for (name, side) in [("long", Side::Long), ("short", Side::Short)] {
        for (row, (low, high)) in SPREADS.iter().zip(LOWEST) {
            for (column, (first, last)) in TIMES.iter().zip(EXPIRIES) {
                for (spread, expiry) in [(low, last), (high, first)] {
                    let printed = say(&format!(
                        "binary {name} spread {spread} valued 20110315 expires {expiry} contracts 40"
                    ))
                    .1;
                    let margin = binary_margin(side, spread, 20110315, expiry, 40).expect("a good position");
                    let start =
                        format!("{name}: 40 contracts, margin {} ({margin} mills): ", dollars(margin));
                    let rest = printed.strip_prefix(&start).unwrap_or_else(|| panic!("{printed}"));
                    let (percent, cell) = rest.split_once("% of $1,000.000 each, ").expect("a percentage");
                    let percent: f64 = percent.parse().expect("a number");
                    assert_eq!(percent * 40.0 * 10_000.0, margin as f64, "{printed}");
                    assert_eq!(cell, format!("spread {row}, {column}\n"));
                }
            }
        }
    }
}

const TABLES: &str = "\
Margin of credit event binaries (circular RG11-039), in percent of the settlement value of $1,000.000 a contract,
by the spread in basis points and the time until expiration. A spread on an edge is in the higher row.

long             1 year or less  over 1 to 3 years  over 3 to 7 years       over 7 years
0 - 100                    0.5%                 1%                 2%               3.5%
100 - 300                    1%               2.5%               3.5%                 5%
300 - 500                  2.5%                 5%               7.5%                10%
500 - 700                    5%               7.5%                10%              12.5%
700 & above                7.5%                10%              12.5%                15%

short            1 year or less  over 1 to 3 years  over 3 to 7 years       over 7 years
0 - 100                      1%                 2%                 4%                 7%
100 - 300                    2%                 5%                 7%                10%
300 - 500                    5%                10%                15%                20%
500 - 700                   10%                15%                20%                25%
700 & above                 15%                20%                25%                30%
";

#[test]
fn the_tables_are_those_of_the_circular() {
    assert_printed("binary --table", TABLES);
}

const LONG: &str = "valued 20110315 long 7 spread 700 expires 20160620 contracts";
const SHORT: &str = "short 7 spread 250 expires 20160620 contracts";

#[test]
fn a_pair_tells_what_is_matched_and_what_is_left() {
    let of_long = "12.5% of $1,000.000 each, spread 700 & above, over 3 to 7 years";
    let of_short = "7% of $1,000.000 each, spread 100 - 300, over 3 to 7 years";
    assert_printed(
        &format!("pair {LONG} 8 paid {SHORT} 10"),
        &format!(
            "margin $140.000 (140000 mills)\nmatched: 8 contracts of each, which need nothing\nlong: nothing left\n\
             short: 2 contracts, margin $140.000 (140000 mills): {of_short}\n"
        ),
    );
    assert_printed(
        &format!("pair {LONG} 2 paid {SHORT} 1"),
        &format!(
            "margin $125.000 (125000 mills)\nmatched: 1 contract of each, which need nothing\n\
             long: 1 contract, margin $125.000 (125000 mills): {of_long}\nshort: nothing left\n"
        ),
    );
    assert_printed(
        &format!("pair {LONG} 3 paid {SHORT} 3"),
        "margin $0.000 (0 mills)\nmatched: 3 contracts of each, which need nothing\nlong: nothing left\n\
         short: nothing left\n",
    );
    let apart = format!(
        "long: 1 contract, margin $125.000 (125000 mills): {of_long}\n\
         short: 2 contracts, margin $140.000 (140000 mills): {of_short}\n"
    );
    for (command, why) in [
        (format!("pair {LONG} 1 {SHORT} 2"), "the long is not paid for in full"),
        (
            format!("pair {LONG} 1 paid {SHORT} 2").replace("long 7", "long 8"),
            "the reference obligations differ",
        ),
        (
            format!("pair {LONG} 1 paid {SHORT} 2").replacen("20160620", "20160619", 1),
            "the long expires before the short",
        ),
    ] {
        let margin = format!("margin $265.000 (265000 mills)\nmatched: nothing, for {why}\n{apart}");
        assert_printed(&command, &margin);
    }
}

#[test]
fn refused_numbers_are_told_and_the_status_is_1() {
    for (command, sentence) in [
        (
            "binary long spread 100001 valued 20110315 expires 20110229 contracts 0",
            "binary: refusal 4: the option's spread is 100001 and must be 0 to 100,000 basis points; the option's \
             expiry is 20110229 and must be a real date from 20000101 to 20991231; the option's count of contracts \
             is 0 and must be 1 to 100,000\n",
        ),
        (
            "binary short spread 0 valued 2011-03-15 expires 2011-03-14 contracts 1",
            "binary: refusal 25: the option expires on 2011-03-14, before the valuation date, 2011-03-15\n",
        ),
        (
            "pair valued 20110315 long 7 spread 0 expires 20110315 contracts 1 paid \
             short 7 spread 0 expires 20110314 contracts 1",
            "pair: refusal 25: the short expires on 2011-03-14, before the valuation date, 2011-03-15\n",
        ),
        (
            "pair valued 21000101 long 7 spread 0 expires 20110315 contracts 1 \
             short 7 spread 0 expires 20110314 contracts 0",
            "pair: refusal 4: the valuation date is 21000101 and must be a real date from 20000101 to 20991231\n",
        ),
    ] {
        assert_eq!(say(command), (1, String::new(), sentence.into()), "{command}");
    }
}

#[test]
fn a_wrong_word_is_told_with_what_was_expected() {
    let binary =
        "sheet: usage: sheet binary long|short spread BASIS-POINTS valued DATE expires DATE contracts COUNT, \
                  or sheet binary --table\n";
    let pair = "sheet: usage: sheet pair valued DATE \
                long REFERENCE spread BASIS-POINTS expires DATE contracts COUNT [paid] \
                short REFERENCE spread BASIS-POINTS expires DATE contracts COUNT\n";
    for (command, expected, form) in [
        ("binary", "`long` or `short`, found the end of the command", binary),
        ("binary written", "`long` or `short`, found `written`", binary),
        ("binary long contracts 1", "`spread`, found `contracts`", binary),
        ("binary long spread 2.5", "whole basis points behind `spread`, found `2.5`", binary),
        ("binary long spread", "whole basis points behind `spread`, found the end of the command", binary),
        (
            "binary long spread 18446744073709551616",
            "whole basis points behind `spread`, found `18446744073709551616`",
            binary,
        ),
        (
            "binary long spread 1 valued 2011-3-15",
            "a date behind `valued`, as 2011-03-15 or 20110315, found `2011-3-15`",
            binary,
        ),
        (
            "binary long spread 1 valued 20110315 expires 20110315 contracts 1 paid",
            "the end of the command, found `paid`",
            binary,
        ),
        (
            "pair valued 20110315 long 7 spread 1 expires 20110315 contracts 1 pad",
            "`paid` or `short`, found `pad`",
            pair,
        ),
        (
            "pair valued 20110315 long 7 spread 1 expires 20110315 contracts 1 paid paid",
            "`short`, found `paid`",
            pair,
        ),
        ("pair long", "`valued`, found `long`", pair),
    ] {
        let message = format!("sheet: expected {expected}\n{form}");
        assert_eq!(say(command), (2, String::new(), message), "{command}");
    }
    for (command, said) in [
        ("binary long --table", ""),
        ("pair --table", "`pair` takes no `--table`; "),
        ("binary --table --json", "`binary` takes no `--json`; "),
        ("pair --json", "`pair` takes no `--json`; "),
    ] {
        let form = if command.starts_with("pair") { pair } else { binary };
        let message = form.replace("sheet: ", &format!("sheet: {said}"));
        assert_eq!(say(command), (2, String::new(), message), "{command}");
    }
}
