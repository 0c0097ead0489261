//! `margins` and `worksheet`.

use usm::{Leg, Settlement, Style};
use usm_kit::accounts::{in_group, leg, placed, times};

use crate::{folder, run, told};

/// P4 as groups 1 and 3, a group 2 that is no spread, and no claim at all.
fn unclaimed() -> Vec<u8> {
    let legs = [
        leg("L50p"),
        leg("S60p"),
        in_group(3, leg("S65c")),
        in_group(3, leg("L70c")),
        in_group(2, times(2, "S60c")),
        in_group(2, leg("L70c")),
    ];
    placed(&legs, &[]).to_file().expect("a file")
}

#[test]
fn margins_are_told_without_a_claim() {
    let folder = folder("tool-margins");
    let printed = "\
group  1  1000000 mills  $1,000.000
group  2  no spread, refusal 11: group 2 has 100 long call units and 200 short call units; they must be \
equal (a leg's units are its contracts times its unit size)
group  3   500000 mills    $500.000
";
    assert_eq!(told(run(&folder, &["margins", "-"], &unclaimed())), (1, printed.into(), String::new()));
    let spreads = placed(&[leg("L60c"), leg("S50c")], &[0]).to_file().expect("a file");
    let printed = "group  1  1000000 mills  $1,000.000\n";
    assert_eq!(told(run(&folder, &["margins", "-"], &spreads)), (0, printed.into(), String::new()));
    let none = placed(&[in_group(0, leg("L60c"))], &[]).to_file().expect("a file");
    let nothing = "-: no group is placed or claimed\n";
    assert_eq!(told(run(&folder, &["margins", "-"], &none)), (0, String::new(), nothing.into()));
    let claimed = placed(&[leg("L60c"), leg("S50c")], &[0, 0]).to_file().expect("a file");
    let (status, printed, _) = told(run(&folder, &["margins", "-"], &claimed));
    let no_leg = "group  2  no spread, refusal 6: group 2 has no leg in the placement";
    assert_eq!((status, printed.lines().nth(1)), (1, Some(no_leg)));
}

#[test]
fn the_leg_is_told_that_keeps_a_group_from_being_a_spread() {
    let folder = folder("tool-leg");
    let legs = [leg("L60c"), in_group(2, leg("S50c")), leg("S50c"), in_group(2, leg("L50c"))];
    let file = placed(&legs, &[]).to_file().expect("a file");
    let sentence = "no spread, refusal 10: the 4th record of the placement (`group 2 long 1 call 50.000 2011-05-21 \
        unit 100 underlying 7 american listed`): it is long call 50.000 2011-05-21 unit 100, and group 2 is short \
        that series since the 2nd record (`group 2 short 1 call 50.000 2011-05-21 unit 100 underlying 7 american \
        listed`)\n";
    let printed = format!("group  1  1000000 mills  $1,000.000\ngroup  2  {sentence}");
    assert_eq!(told(run(&folder, &["margins", "-"], &file)), (1, printed, String::new()));
    let refused = (1, String::new(), format!("-: {sentence}"));
    assert_eq!(told(run(&folder, &["worksheet", "-", "2"], &file)), refused);
}

#[test]
fn a_worksheet_has_a_row_for_each_strike() {
    let folder = folder("tool-worksheet");
    let legs: [Leg; 4] = [leg("L50p"), leg("S60p"), leg("S65c"), leg("L70c")];
    let file = placed(&legs, &[]).to_file().expect("a file");
    let printed = "\
group 1, margin $1,000.000 (1000000 mills)
 strike          net
$50.000  -$1,000.000  ------------------------|
$60.000       $0.000                          |
$65.000       $0.000                          |
$70.000    -$500.000              ------------|
";
    assert_eq!(told(run(&folder, &["worksheet", "-", "1"], &file)), (0, printed.into(), String::new()));
    let (status, printed, sentence) = told(run(&folder, &["worksheet", "-", "33"], &file));
    let none = "-: no spread, refusal 6: there is no group 33: groups are numbered 1 to 32\n";
    assert_eq!((status, printed.as_str(), sentence.as_str()), (1, "", none));
    let (status, printed, sentence) = told(run(&folder, &["worksheet", "-", "one"], &file));
    let number = "sheet: expected the number of a group, found `one`\n";
    assert_eq!((status, printed.as_str(), sentence.as_str()), (2, "", number));
}

#[test]
fn the_cash_of_each_group_is_told_or_why_there_is_none() {
    let folder = folder("tool-cash");
    let fit = |notation| Leg { style: Style::European, settlement: Settlement::Cash, ..leg(notation) };
    let legs = [
        fit("L60c"),
        fit("S50c"),
        in_group(2, leg("L60c")),
        in_group(2, leg("S50c")),
        in_group(3, leg("S50c")),
    ];
    let file = placed(&legs, &[]).to_file().expect("a file");
    let printed = "\
group  1  1000000 mills  $1,000.000
group  2  not for cash, refusal 21: group 2 is not fit for a cash account: the 3rd record of the placement \
(`group 2 long 1 call 60.000 2011-05-21 unit 100 underlying 7 american listed`) is american and must be european
group  3  no spread, refusal 11: group 3 has 0 long call units and 100 short call units; they must be equal \
(a leg's units are its contracts times its unit size)
";
    assert_eq!(told(run(&folder, &["cash", "-"], &file)), (1, printed.into(), String::new()));
    let fit_only = placed(&[fit("L60c"), fit("S50c")], &[]).to_file().expect("a file");
    let printed = "group  1  1000000 mills  $1,000.000\n";
    assert_eq!(told(run(&folder, &["cash", "-"], &fit_only)), (0, printed.into(), String::new()));
}

#[test]
fn a_european_long_box_is_told_what_its_margin_is_half_of() {
    let legs =
        ["L50c", "S60c", "L60p", "S50p"].map(|notation| Leg { style: Style::European, ..leg(notation) });
    let file = placed(&legs, &[]).to_file().expect("a file");
    let printed = "\
group 1, margin $500.000 (500000 mills), half of $1,000.000, the difference in strikes of this \
European long box times its units
 strike         net
$50.000  $1,000.000  |++++++++++++++++++++++++
$60.000  $1,000.000  |++++++++++++++++++++++++
";
    let folder = folder("tool-box");
    assert_eq!(told(run(&folder, &["worksheet", "-", "1"], &file)), (0, printed.into(), String::new()));
    let printed = "group  1  500000 mills  $500.000\n";
    assert_eq!(told(run(&folder, &["margins", "-"], &file)), (0, printed.into(), String::new()));
}

/// Of the worksheet of group 1 of these legs, the lines below its head.
fn rows(test: &str, legs: &[Leg]) -> Vec<String> {
    let file = placed(legs, &[]).to_file().expect("a file");
    let (status, printed, _) = told(run(&folder(test), &["worksheet", "-", "1"], &file));
    assert_eq!(status, 0);
    printed.lines().skip(1).map(String::from).collect()
}

#[test]
fn bars_stand_on_both_sides_of_zero() {
    // A short vertical, and in unit 1 a long one that gains a mill before the other loses.
    let mill = |notation, strike| Leg { unit_size: 1, strike, ..leg(notation) };
    let legs =
        [mill("L10c", 10_000), mill("S10c", 10_001), leg("S50c"), leg("L60c"), leg("L30p"), leg("S25p")];
    assert_eq!(
        rows("tool-bars", &legs),
        [
            " strike        net",
            "$10.000   $500.000                          |+++++++++++++",
            "$10.001   $500.001                          |+++++++++++++",
            "$25.000   $500.001                          |+++++++++++++",
            "$30.000     $0.001                          |+",
            "$50.000     $0.001                          |+",
            "$60.000  -$999.999  ------------------------|",
        ]
    );
}

#[test]
fn no_loss_has_no_room_for_one_and_no_net_no_bar() {
    let butterfly = [leg("L50c"), times(2, "S60c"), leg("L70c")];
    let bars = ["|", "|++++++++++++++++++++++++", "|"];
    for (row, bar) in rows("tool-no-loss", &butterfly)[1..].iter().zip(bars) {
        assert!(row.ends_with(&format!("  {bar}")), "{row}");
    }
    let most = |notation| Leg { unit_size: 1_000, contracts: 100_000, ..leg(notation) };
    let amounts = [Leg { strike: 1, ..most("S50c") }, Leg { strike: 99_999_999, ..most("L50c") }];
    let last = "$99,999.999  -$9,999,999,800,000.000  ------------------------|";
    assert_eq!(rows("tool-no-loss", &amounts).last().map(String::as_str), Some(last));
}

#[test]
fn a_text_has_no_margins_before_it_is_made() {
    let folder = folder("tool-margins-text");
    for arguments in [&["margins", "-"][..], &["worksheet", "-", "1"]] {
        let (status, printed, message) = told(run(&folder, arguments, b"placement\n"));
        assert_eq!((status, printed.as_str()), (2, ""));
        assert!(message.starts_with("sheet: -: refusal 1: this is the text of a sheet"), "{message}");
    }
}
