//! `claim`: claims that are filled in; and claims that `make` warns of.

use std::fs;

use usm::{text, Claim, Sheet};
use usm_kit::accounts::{in_group, leg, paid, placed, times};

use crate::{folder, names_in, run, told, VERTICAL};

/// P4 as groups 1 and 2, of this account, with these claims.
fn sheet(account: u64, claims: &[i64]) -> Sheet {
    let legs =
        [leg("L50p"), leg("S60p"), in_group(2, leg("S65c")), in_group(2, leg("L70c")), paid(leg("L90c"))];
    Sheet { account, ..placed(&legs, claims) }
}

fn file(sheet: &Sheet) -> Vec<u8> {
    sheet.to_file().expect("a file")
}

const TOTAL: &str = "2 claims, total margin $1,500.000 (1500000 mills)";

#[test]
fn each_claim_is_what_the_library_says() {
    let folder = folder("tool-claim");
    for (claims, said) in [
        (
            &[][..],
            "in.usm: group 1 claims $1,000.000 (1000000 mills), and had no claim\n\
                   in.usm: group 2 claims $500.000 (500000 mills), and had no claim\n",
        ),
        (
            &[1_000_000, 499_999],
            "in.usm: group 2 claims $500.000 (500000 mills), and claimed $499.999 (499999 mills)\n",
        ),
        (
            &[1_000_000, 500_000, 7],
            "in.usm: the claim of group 3, $0.007 (7 mills), is left out: no leg is placed in it\n",
        ),
        (&[1_000_000, 500_000], ""),
    ] {
        for account in [0, u64::MAX] {
            fs::write(folder.join("in.usm"), file(&sheet(account, claims))).expect("a file");
            let told = told(run(&folder, &["claim", "in.usm", "out.usm", "--force"], b""));
            assert_eq!(told, (0, String::new(), format!("{said}in.usm: {TOTAL}\n")));
            let claimed = fs::read(folder.join("out.usm")).expect("written");
            assert_eq!(
                claimed,
                file(&sheet(account, &[1_000_000, 500_000])),
                "form, account and records stay"
            );
            assert!(usm::check_file(&claimed).is_ok());
        }
    }
    let mut twice = sheet(0, &[1_000_000, 500_000]);
    twice.claims.push(Claim { group: 2, margin: 9 });
    let claimed = run(&folder, &["claim", "-", "-"], &file(&twice));
    assert_eq!(claimed.stdout, file(&sheet(0, &[1_000_000, 500_000])));
    let said = "-: group 2 had a second claim, of $0.009 (9 mills), which is left out\n";
    assert_eq!(String::from_utf8_lossy(&claimed.stderr), format!("{said}-: {TOTAL}\n"));
}

#[test]
fn a_text_stays_a_text_unless_a_sheet_file_is_asked_for() {
    let folder = folder("tool-claim-text");
    let before = text::show(&sheet(4711, &[]));
    let after = sheet(4711, &[1_000_000, 500_000]);
    let (status, claimed, _) = told(run(&folder, &["claim", "-", "-"], before.as_bytes()));
    assert_eq!((status, claimed), (0, text::show(&after)));
    assert_eq!(told(run(&folder, &["claim", "-", "out.usm"], before.as_bytes())).0, 0);
    assert_eq!(fs::read(folder.join("out.usm")).expect("written"), file(&after));
    // Nothing is placed, so nothing is claimed.
    let held = "holdings\n  long  1 call 60.000 2011-05-21 unit 100 underlying 7 american listed\n";
    let (status, claimed, said) = told(run(&folder, &["claim", "-", "-"], held.as_bytes()));
    assert_eq!((status, claimed), (0, format!("{held}\nplacement\n\nclaims\n")));
    assert_eq!(said, "-: 0 claims, total margin $0.000 (0 mills)\n");
}

#[test]
fn a_name_in_capitals_asks_for_a_sheet_file_too() {
    let folder = folder("tool-claim-capitals");
    assert_eq!(told(run(&folder, &["claim", "-", "OUT.USM"], VERTICAL.as_bytes())).0, 0);
    let made = fs::read(folder.join("OUT.USM")).expect("written");
    assert_eq!(usm::file_line(&made), "ACCEPT 1 1000000\n");
}

#[test]
fn a_text_without_a_record_is_refused() {
    let folder = folder("tool-claim-empty");
    let empty = "sheet: -: there is no record in it, and an empty sheet has no file\n";
    for text in ["", "# nothing\n", "account 7\nholdings\nplacement\nclaims\n"] {
        for out in ["-", "out.txt", "out.usm"] {
            let told = told(run(&folder, &["claim", "-", out], text.as_bytes()));
            assert_eq!(told, (2, String::new(), empty.into()), "{text:?}");
        }
    }
    assert!(names_in(&folder).is_empty());
}

#[test]
fn comments_that_a_text_loses_are_told() {
    let folder = folder("tool-claim-comments");
    let total = "-: 1 claim, total margin $1,000.000 (1000000 mills)\n";
    let bare = VERTICAL.split_once('\n').expect("lines").1;
    let noted = VERTICAL.replace("claim 1 1000000", "claim 1 1000000 # as agreed");
    let left_out = format!("-: its comments are left out\n{total}");
    for (text, said) in [(VERTICAL, left_out.as_str()), (&noted, &left_out), (bare, total)] {
        let (status, claimed, found) = told(run(&folder, &["claim", "-", "-"], text.as_bytes()));
        assert_eq!((status, claimed.contains('#'), found.as_str()), (0, false, said));
    }
    // A sheet file has no place for any.
    let file = told(run(&folder, &["claim", "-", "out.usm"], VERTICAL.as_bytes()));
    assert_eq!(file, (0, String::new(), total.into()));
}

#[test]
fn a_group_without_a_margin_is_told_and_nothing_is_written() {
    let folder = folder("tool-claim-none");
    let legs = [leg("L50p"), leg("S60p"), in_group(4, times(2, "S65c")), in_group(4, leg("L70c"))];
    fs::write(folder.join("in.usm"), file(&placed(&legs, &[1]))).expect("a file");
    fs::write(folder.join("kept.usm"), "mine").expect("a file");
    let why = "in.usm: no spread, refusal 6: group 2 has no leg in the placement\n\
               in.usm: no spread, refusal 6: group 3 has no leg in the placement\n\
               in.usm: no spread, refusal 11: group 4 has 100 long call units and 200 short call units; they must be \
               equal (a leg's units are its contracts times its unit size)\n";
    for out in ["out.usm", "kept.usm"] {
        let told = told(run(&folder, &["claim", "in.usm", out, "--force"], b""));
        assert_eq!(told, (1, String::new(), why.into()));
    }
    for (arguments, message) in [
        (["claim", "in.usm", "./in.usm"], "in.usm: cannot be written over itself; name another file for OUT"),
        (
            ["claim", "-", "out.usm"],
            "-: line 1, column 1: expected the section `holdings`, `placement` or `claims`, found `Dear`",
        ),
    ] {
        let told = told(run(&folder, &arguments, b"Dear sirs"));
        assert_eq!(told, (2, String::new(), format!("sheet: {message}\n")));
    }
    assert_eq!(names_in(&folder), ["in.usm", "kept.usm"]);
    assert_eq!(fs::read(folder.join("kept.usm")).expect("kept"), b"mine");
}

#[test]
fn a_claim_may_be_in_dollars() {
    let folder = folder("tool-claim-dollars");
    let made = |claim: &str| {
        let text = VERTICAL.replace("claim 1 1000000", &format!("claim 1 {claim}"));
        told(run(&folder, &["make", "-", "out.usm", "--force"], text.as_bytes()))
    };
    for claim in ["1000000", "$1,000.000", "$1000", "$1000.0"] {
        assert_eq!(made(claim), (0, String::new(), String::new()), "{claim}");
        let file = fs::read(folder.join("out.usm")).expect("made");
        assert_eq!(usm::file_line(&file), "ACCEPT 1 1000000\n", "{claim}");
    }
    for (claim, mills) in [
        ("1", "1 mill, which is $0.001"),
        ("999", "999 mills, which is $0.999"),
        ("1000", "1,000 mills, which is $1.000"),
    ] {
        let warning = format!(
            "-: warning: group 1 claims {mills}, and its margin is $1,000.000 (1000000 mills); strikes are in dollars, \
             and claims in mills, or in dollars behind a `$`, as $1,000.000\n"
        );
        assert_eq!(made(claim), (0, String::new(), warning), "{claim}");
    }
    // Neither 0 is warned of, nor a dollar where the margin is not 1,000 times it, nor a claim that is just right.
    assert_eq!(["0", "1001"].map(made), [(); 2].map(|()| (0, String::new(), String::new())));
    let least = placed(&[leg("S50c"), usm::Leg { strike: 50_004, ..leg("L50c") }], &[400]);
    let told_of = told(run(&folder, &["make", "-", "out.usm", "--force"], text::show(&least).as_bytes()));
    assert_eq!(told_of, (0, String::new(), String::new()));
    let no_spread =
        "holdings\nplacement\n group 1 long 1 call 60 2011-05-21 unit 100 underlying 7 american listed\n\
                     claims\n claim 1 600\n";
    let (status, _, said) = told(run(&folder, &["make", "-", "out.usm", "--force"], no_spread.as_bytes()));
    assert!(
        status == 0 && said.starts_with("-: warning: group 1 claims 600 mills, which is $0.600; strikes"),
        "{said}"
    );
}

#[test]
fn a_text_without_a_placement_is_made_and_its_holdings_are_handed_on() {
    let folder = folder("tool-held");
    let held = "account 18446744073709551615\n\nholdings\n  \
                long  2 call 60.000 2011-05-21 unit 100 underlying 7 american listed cash paid\n";
    fs::write(folder.join("held.txt"), held).expect("a text");
    assert_eq!(told(run(&folder, &["make", "held.txt", "held.usm"], b"")), (0, String::new(), String::new()));
    assert_eq!(told(run(&folder, &["show", "--holdings", "held.usm"], b"")), (0, held.into(), String::new()));
    // Of a whole sheet only account and holdings; what comes out is made again.
    let whole = text::show(&sheet(7, &[1_000_000, 500_000]));
    let file = run(&folder, &["make", "-", "-"], whole.as_bytes()).stdout;
    let (status, shown, _) = told(run(&folder, &["show", "-", "--holdings"], &file));
    assert_eq!((status, shown.as_str()), (0, whole.split("\nplacement").next().expect("holdings")));
    let again = run(&folder, &["make", "-", "-"], shown.as_bytes()).stdout;
    assert_eq!(Sheet::from_file(&again), Ok(Sheet { placement: vec![], claims: vec![], ..sheet(7, &[]) }));
}
