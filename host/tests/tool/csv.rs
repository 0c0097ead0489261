//! CSV, as a spreadsheet saves it: in by `make`, `play`, `export` and `from-csv`, out by `to-csv` and others.

use std::fs;
use std::path::Path;

use usm::{csv, text, Leg, Settlement, Sheet, Style};
use usm_kit::accounts::{in_group, leg, paid, placed};

use crate::{example, folder, names_in, run, told};

const HOLDINGS: &str = "\u{FEFF}Strike;Expiry;Side;Type;Contracts;Unit;Underlying;Style;Market;Notes\r\n\
                        60;2011-05-21;Long;Call;\"1\";100;7;American;Listed;\r\n\
                        50,0;20110521;SHORT;call;1;100;7;american;listed\r\n;;;;;;;;;\r\n";

const PLACEMENT: &str = "\
group,side,contracts,type,strike,expiry,unit,underlying,style,market,settlement,paid
1,long,1,call,60.000,2011-05-21,100,7,american,listed,,
1,short,1,call,50.000,2011-05-21,100,7,american,listed,,
";

/// A sheet with every term in it, and a long that is paid.
fn sheet() -> Sheet {
    let european = |notation| Leg { style: Style::European, settlement: Settlement::Cash, ..leg(notation) };
    let legs = [european("L60c"), european("S50c"), paid(leg("L90p")), in_group(0, leg("L80p"))];
    Sheet { account: 4711, ..placed(&legs, &[]) }
}

#[test]
fn two_tables_of_a_spreadsheet_make_a_sheet() {
    let folder = folder("tool-csv-make");
    fs::write(folder.join("held.csv"), HOLDINGS.replace(";Notes", ";")).expect("a CSV");
    fs::write(folder.join("placed.CSV"), PLACEMENT).expect("a CSV");
    let claims = "mine.usm: there are no claims yet; `sheet claim FILE OUT` fills them in\n";
    let made = told(run(&folder, &["make", "held.csv", "placed.CSV", "mine.usm"], b""));
    assert_eq!(made, (0, String::new(), claims.into()));
    assert_eq!(told(run(&folder, &["claim", "mine.usm", "claimed.usm"], b"")).0, 0);
    let (status, line, _) = told(run(&folder, &["check", "claimed.usm"], b""));
    assert_eq!((status, line.as_str()), (0, "ACCEPT 1 1000000\n"));
    // Holdings alone are a sheet without a placement.
    assert_eq!(told(run(&folder, &["make", "held.csv", "held.usm"], b"")), (0, String::new(), String::new()));
    let held = Sheet::from_file(&fs::read(folder.join("held.usm")).expect("made")).expect("a sheet");
    assert_eq!(held.holdings, placed(&[leg("L60c"), leg("S50c")], &[]).holdings);
}

#[test]
fn every_table_goes_there_and_back() {
    let folder = folder("tool-csv-round");
    let account = "sheet.SORT: its account, 4711, is left out: a CSV does not say it\n";
    fs::write(folder.join("sheet.usm"), sheet().to_file().expect("a file")).expect("a file");
    fs::write(folder.join("sheet.txt"), text::show(&sheet())).expect("a text");
    for sort in ["usm", "txt"] {
        let name = format!("sheet.{sort}");
        for (table, expected) in [
            ("holdings", csv::show_holdings(&sheet().holdings)),
            ("placement", csv::show_placement(&sheet().placement)),
        ] {
            let said = told(run(&folder, &["to-csv", table, &name, "-"], b""));
            assert_eq!(said, (0, expected.clone(), account.replace("SORT", sort)));
            let (status, section, _) =
                told(run(&folder, &["from-csv", table, "-", "-"], expected.as_bytes()));
            assert!(status == 0 && text::show(&sheet()).contains(&section), "{section}");
        }
    }
    let fills = "fills\n  open  long  5 call 60.000 2011-05-21 unit 100 underlying 7 american listed\n  \
                 close short 2 put  65.500 2011-05-21 unit 10 underlying 4294967295 european otc physical\n";
    let rows = "action,side,contracts,type,strike,expiry,unit,underlying,style,market,settlement\n\
                open,long,5,call,60.000,2011-05-21,100,7,american,listed,\n\
                close,short,2,put,65.500,2011-05-21,10,4294967295,european,otc,physical\n";
    assert_eq!(
        told(run(&folder, &["to-csv", "fills", "-", "-"], fills.as_bytes())),
        (0, rows.into(), String::new())
    );
    assert_eq!(
        told(run(&folder, &["from-csv", "fills", "-", "-"], rows.as_bytes())),
        (0, fills.into(), String::new())
    );
}

#[test]
fn a_day_is_played_from_csv_to_csv() {
    let folder = folder("tool-csv-play");
    fs::write(folder.join("held.csv"), HOLDINGS.replace(";Notes", "")).expect("a CSV");
    let fills = "action,side,contracts,type,strike,expiry,unit,underlying,style,market\n\
                 open,long,2,call,60,2011-05-21,100,7,american,listed\n";
    fs::write(folder.join("fills.csv"), fills).expect("a CSV");
    let played = told(run(&folder, &["play", "held.csv", "fills.csv", "out.csv"], b""));
    assert_eq!(played, (0, String::new(), "1 played, 0 refused; the holdings have 2 records\n".into()));
    let today = "side,contracts,type,strike,expiry,unit,underlying,style,market,settlement,paid\n\
                 long,3,call,60.000,2011-05-21,100,7,american,listed,,\n\
                 short,1,call,50.000,2011-05-21,100,7,american,listed,,\n";
    assert_eq!(fs::read_to_string(folder.join("out.csv")).expect("written"), today);
    fs::write(folder.join("roots.txt"), "A american listed unit 100 underlying 7\n").expect("a text");
    let list = "A     110521C00060000 L 3\nA     110521C00050000 S 1\n";
    assert_eq!(told(run(&folder, &["export", "roots.txt", "out.csv", "-"], b"")).1, list);
    assert_eq!(told(run(&folder, &["import", "roots.txt", "-", "back.csv"], list.as_bytes())).0, 0);
    assert_eq!(fs::read_to_string(folder.join("back.csv")).expect("written"), today);
}

/// Makes of this placement nothing; what is said, without the name.
#[track_caller]
fn wrong(folder: &Path, placement: &str) -> String {
    let (status, made, said) =
        told(run(folder, &["from-csv", "placement", "-", "out.txt"], placement.as_bytes()));
    assert_eq!((status, made.as_str(), names_in(folder).len()), (2, "", 0), "{said}");
    said.lines().map(|line| format!("{}\n", line.strip_prefix("sheet: -: ").expect("a name"))).collect()
}

/// The placement with one thing changed makes nothing, and this is said.
#[track_caller]
fn assert_wrong(folder: &Path, from: &str, to: &str, said: &str) {
    assert!(PLACEMENT.contains(from), "{from}");
    assert_eq!(wrong(folder, &PLACEMENT.replacen(from, to, 1)), format!("{said}\n"));
}

#[test]
fn wrong_names_of_columns_are_told() {
    let folder = folder("tool-csv-columns");
    let columns =
        "group, side, contracts, type, strike, expiry, unit, underlying, style, market, settlement, paid";
    let expected = format!("row 1, column 2: expected the name of a column ({columns}), found `sides`");
    assert_wrong(&folder, "group,side", "Group,sides", &expected);
    assert_wrong(&folder, "group,side", "side,side", "row 1, column 2: there is a column side already");
    assert_wrong(&folder, "strike,expiry,", "", "row 1: these columns are missing: strike, expiry");
    let stray = "row 2, column 13: found `x`, and this column has no name in row 1";
    assert_wrong(&folder, "listed,,\n1", "listed,,,x\n1", stray);
    assert_eq!(wrong(&folder, ""), "row 1: expected the names of the columns, found nothing\n");
    let marks = wrong(&folder, &format!("\u{FEFF}\u{FEFF}{PLACEMENT}"));
    assert!(marks.starts_with("row 1, column 1: expected the name of a column"), "{marks}");
}

#[test]
fn wrong_cells_are_told_by_row_and_column() {
    let folder = folder("tool-csv-cells");
    let group = "row 3, column 1 (group): expected a group from 1 to 32, or `unplaced`, found";
    let side = "column 2 (side): expected `long` or `short`, found";
    let strike =
        "row 2, column 5 (strike): expected a strike in dollars from 0.001 to 99999.999 with up to three \
                  decimals, found";
    let expiry = "row 3, column 6 (expiry): expected an expiry YYYY-MM-DD, a real date from 2000-01-01 to 2099-12-31, \
                  found `21.05.2011`";
    let unit = "row 3, column 7 (unit): expected a whole number from 1 to 1000, found `1001`";
    let settlement =
        "row 2, column 11 (settlement): expected `cash`, `physical` or an empty cell, found `cahs`";
    let paid = "row 2, column 12 (paid): expected `yes`, `no` or an empty cell, found `maybe`";
    for (from, to, said) in [
        ("1,short", "0,short", &*format!("{group} `0`")),
        ("1,short", ",short", &*format!("{group} an empty cell")),
        ("1,short", "1,shrt", &*format!("row 3, {side} `shrt`")),
        ("1,long,1,call", "1,lang,0,call", &*format!("row 2, {side} `lang`")),
        ("60.000", "\"60,5\"", &*format!("{strike} `60,5`")),
        ("60.000", "\"1,000\"", &*format!("{strike} `1,000`")),
        ("60.000", "\u{1b}[2J", &*format!("{strike} `\\u{{1b}}[2J`")),
        ("50.000,2011-05-21", "50.000,21.05.2011", expiry),
        ("50.000,2011-05-21,100", "50.000,20110521,1001", unit),
        ("listed,,\n1", "listed,cahs,\n1", settlement),
        ("listed,,\n1", "listed,,maybe\n1", paid),
        ("1,long,1", "1,long,\"1", "row 2, column 3: the quote that opens this cell is not closed"),
    ] {
        assert_wrong(&folder, from, to, said);
    }
    // Each row is looked at, and rows are those of the spreadsheet, whatever stands between them.
    let rows = PLACEMENT.replace("1,long,1", "\"\n1\n\",lang,1").replace("1,short", "\n\n1,shrt");
    assert_eq!(wrong(&folder, &rows), format!("row 2, {side} `lang`\nrow 5, {side} `shrt`\n"));
}

#[test]
fn a_table_has_its_limit_and_errors_behind_the_twentieth_are_counted() {
    let folder = folder("tool-csv-limit");
    let (head, rows) = PLACEMENT.split_once('\n').expect("a first row");
    let row = rows.lines().next().expect("a row");
    let of = |count| format!("{head}\n{}", format!("{row}\n").repeat(count));
    assert_eq!(csv::parse_placement(&of(256)).map(|placement| placement.len()), Ok(256));
    assert_eq!(wrong(&folder, &of(257)), "row 258: expected no more than 256 records in the placement\n");
    let said = wrong(&folder, &of(50).replace("long", "lang"));
    assert_eq!((said.lines().count(), said.lines().last()), (21, Some("and 30 more errors")));
    let fills = |count| {
        let head = "action,side,contracts,type,strike,expiry,unit,underlying,style,market\n";
        format!("{head}{}", "open,long,1,call,60,2011-05-21,100,7,american,listed\n".repeat(count))
    };
    assert_eq!(csv::parse_fills(&fills(1_024)).map(|fills| fills.len()), Ok(1_024));
    let errors = csv::parse_fills(&fills(1_025)).unwrap_err().to_string();
    assert_eq!(errors, "row 1026: expected no more than 1024 fills");
    let holdings = csv::show_holdings(&vec![in_group(0, leg("L60c")); 257]);
    let errors = csv::parse_holdings(&holdings).unwrap_err().to_string();
    assert_eq!(errors, "row 258: expected no more than 256 holdings");
}

#[test]
fn what_is_there_stays_and_a_wrong_word_is_told() {
    let folder = folder("tool-csv-kept");
    fs::write(folder.join("held.csv"), HOLDINGS.replace(";Notes", "")).expect("a CSV");
    fs::write(folder.join("out.txt"), "mine").expect("a file");
    let form = "usage: sheet from-csv holdings|placement|fills CSV OUT [--force]";
    for (arguments, message) in [
        (["from-csv", "holdings", "held.csv", "out.txt"], "out.txt: is there already; --force overwrites it"),
        (
            ["from-csv", "holdings", "held.csv", "./held.csv"],
            "held.csv: cannot be written over itself; name another file for OUT",
        ),
        (
            ["from-csv", "held", "held.csv", "new.txt"],
            &format!("expected `holdings`, `placement` or `fills`, found `held`; {form}"),
        ),
        (["from-csv", "fills", "held.csv", "new.txt"], "held.csv: row 1: these columns are missing: action"),
        (
            ["make", "-", "held.csv", "new.usm"],
            "usage: sheet make TEXT OUT [--force], or sheet make HOLDINGS.csv PLACEMENT.csv OUT [--force]",
        ),
    ] {
        let told = told(run(&folder, &arguments, b""));
        assert_eq!(told, (2, String::new(), format!("sheet: {message}\n")), "{arguments:?}");
    }
    assert_eq!(names_in(&folder), ["held.csv", "out.txt"]);
    assert_eq!(fs::read(folder.join("out.txt")).expect("kept"), b"mine");
}

#[test]
fn the_table_in_the_help_is_one_that_is_read() {
    let holdings = csv::parse_holdings(&example(csv::FORMAT, "  "));
    assert_eq!(holdings.map(|holdings| holdings.len()), Ok(2));
}
