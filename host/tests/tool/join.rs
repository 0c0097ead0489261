//! `join`: two groups of a sheet put into one.

use std::fs;
use std::path::Path;

use usm::{Leg, Sheet};
use usm_kit::accounts::{in_group, leg, paid, placed};

use crate::{folder, names_in, run, told};

/// P4 as groups 1 and 3, P5 as groups 2 and 4, puts before calls in each; of this account.
fn four_groups(account: u64) -> Sheet {
    let legs = [
        leg("L50p"),
        leg("S60p"),
        in_group(3, leg("S65c")),
        in_group(3, leg("L70c")),
        paid(leg("L90c")),
        in_group(2, leg("L60p")),
        in_group(2, leg("S50p")),
        in_group(4, leg("L50c")),
        in_group(4, leg("S60c")),
    ];
    Sheet { account, ..placed(&legs, &[1_000_000, 0, 500_000, 0]) }
}

/// The same with these groups, and these claims.
fn regrouped(sheet: Sheet, groups: [u16; 9], claims: &[i64]) -> Sheet {
    let placement: Vec<Leg> =
        sheet.placement.iter().zip(groups).map(|(leg, group)| in_group(group, *leg)).collect();
    Sheet { claims: placed(&[], claims).claims, placement, ..sheet }
}

fn file(sheet: &Sheet) -> Vec<u8> {
    sheet.to_file().expect("a file")
}

const NEVER_MORE: &str = "joining never costs more, unless it makes a European long box";

#[test]
fn two_groups_become_one_and_the_total_is_told() {
    let folder = folder("tool-join");
    let before = "total margin $1,500.000 (1500000 mills) before";
    let down = ", and the groups above move down by one";
    for account in [0, 4711] {
        let sheet = four_groups(account);
        fs::write(folder.join("in.usm"), file(&sheet)).expect("a file");
        // P4 whole; neighbours; the last two; the first and the last.
        for ([g, k], above, groups, claims, after) in [
            (["1", "3"], down, [1, 1, 1, 1, 0, 2, 2, 3, 3], [1_000_000, 0, 0], "$1,000.000 (1000000 mills)"),
            (
                ["3", "2"],
                down,
                [1, 1, 2, 2, 0, 2, 2, 3, 3],
                [1_000_000, 500_000, 0],
                "$1,500.000 (1500000 mills)",
            ),
            (["4", "3"], "", [1, 1, 3, 3, 0, 2, 2, 3, 3], [1_000_000, 0, 0], "$1,000.000 (1000000 mills)"),
            (
                ["1", "4"],
                "",
                [1, 1, 3, 3, 0, 2, 2, 1, 1],
                [1_000_000, 0, 500_000],
                "$1,500.000 (1500000 mills)",
            ),
        ] {
            let lower = g.min(k);
            let said = format!(
                "in.usm: groups {g} and {k} are now group {lower}{above}; {before}, {after} after; {NEVER_MORE}\n"
            );
            let told = told(run(&folder, &["join", "in.usm", g, k, "out.usm", "--force"], b""));
            assert_eq!(told, (0, String::new(), said));
            let joined = fs::read(folder.join("out.usm")).expect("joined");
            assert!(
                joined == file(&regrouped(sheet.clone(), groups, &claims)),
                "{g} and {k}: account {account}"
            );
            assert!(usm::check_file(&joined).is_ok());
        }
    }
    assert_eq!(names_in(&folder), ["in.usm", "out.usm"]);
}

#[test]
fn a_join_goes_from_standard_input_to_standard_output() {
    let folder = folder("tool-join-pipe");
    let sheet = four_groups(7);
    let joined = run(&folder, &["join", "-", "1", "3", "-"], &file(&sheet));
    let whole = regrouped(sheet, [1, 1, 1, 1, 0, 2, 2, 3, 3], &[1_000_000, 0, 0]);
    assert_eq!((joined.status.code(), joined.stdout), (Some(0), file(&whole)));
    assert!(String::from_utf8_lossy(&joined.stderr).starts_with("-: groups 1 and 3 are now group 1, "));
}

/// The files that the refusals below are told of.
fn write_inputs(folder: &Path) {
    let other = |group, underlying| {
        ["L60c", "S50c"].map(|notation| Leg { underlying, ..in_group(group, leg(notation)) })
    };
    let mixed = placed(&[other(1, 7), other(2, 8)].concat(), &[1_000_000, 1_000_000]);
    let mut claimed = four_groups(0);
    claimed.claims[1].margin = 1;
    let mut unequal = four_groups(0);
    unequal.placement[8].contracts = 2;
    for (name, sheet) in [
        ("in.usm", &four_groups(0)),
        ("mixed.usm", &mixed),
        ("claimed.usm", &claimed),
        ("unequal.usm", &unequal),
    ] {
        fs::write(folder.join(name), file(sheet)).expect("a file");
    }
    fs::write(folder.join("kept.usm"), "mine").expect("a file");
}

/// Each is told so, with its status, and writes nothing.
#[track_caller]
fn assert_told(folder: &Path, cases: &[(&[&str], i32, &str)]) {
    for (arguments, expected, message) in cases {
        let (status, printed, said) = told(run(folder, &[&["join"], *arguments].concat(), b"holdings\n"));
        assert_eq!((status, printed.as_str()), (*expected, ""), "{arguments:?}: {said}");
        assert!(said.starts_with(message), "{arguments:?}: {said}");
        assert_eq!(said.lines().count(), 1, "{said}");
    }
}

#[test]
fn what_the_library_refuses_is_told_in_its_sentence_and_writes_nothing() {
    let folder = folder("tool-join-refused");
    write_inputs(&folder);
    let inputs = names_in(&folder);
    let mixed = "mixed.usm: groups 2 and 1 put into one are no spread, refusal 7: the 3rd record of the placement \
                 (`group 1 long 1 call 60.000 2011-05-21 unit 100 underlying 8 american listed`): its underlying \
                 is 8, that of group 1 is 7 since the 1st record\n";
    let cases: &[(&[&str], i32, &str)] = &[
        (
            &["in.usm", "1", "2", "out"],
            1,
            "in.usm: groups 1 and 2 put into one are no spread, refusal 10: the 6th record of the placement (`group 1 ",
        ),
        (&["mixed.usm", "2", "1", "out"], 1, mixed),
        (&["in.usm", "1", "5", "out"], 1, "in.usm: no spread, refusal 6: group 5 has no leg in the placement\n"),
        (
            &["in.usm", "0", "1", "out"],
            1,
            "in.usm: no spread, refusal 6: there is no group 0: groups are numbered 1 to 32\n",
        ),
        (
            &["in.usm", "4", "33", "out"],
            1,
            "in.usm: no spread, refusal 6: there is no group 33: groups are numbered 1 to 32\n",
        ),
        (
            &["claimed.usm", "1", "3", "out"],
            1,
            "claimed.usm: refused before any join, refusal 16: group 2 claims $0.001 (1 mills); its margin is $0.000",
        ),
        (
            &["unequal.usm", "1", "3", "out"],
            1,
            "unequal.usm: refused before any join, refusal 11: group 4 has 100 long call units and 200 short",
        ),
    ];
    assert_told(&folder, cases);
    assert_eq!(names_in(&folder), inputs);
}

#[test]
fn what_cannot_be_done_is_told_and_writes_nothing() {
    let folder = folder("tool-join-undone");
    write_inputs(&folder);
    let inputs = names_in(&folder);
    let cases: &[(&[&str], i32, &str)] = &[
        (&["in.usm", "2", "2", "out"], 2, "sheet: two groups are joined, and group 2 is named twice\n"),
        (&["in.usm", "one", "2", "out"], 2, "sheet: expected the number of a group, found `one`\n"),
        (&["in.usm", "1", "", "out"], 2, "sheet: expected the number of a group, found an empty word\n"),
        (
            &["-", "1", "2", "out"],
            2,
            "sheet: -: refusal 1: this is the text of a sheet and not yet a sheet file",
        ),
        (&["none.usm", "1", "2", "out"], 2, "sheet: none.usm: cannot be read: "),
        (
            &["in.usm", "1", "3", "./in.usm", "--force"],
            2,
            "sheet: in.usm: cannot be written over itself; name another file for OUT\n",
        ),
        (&["in.usm", "1", "3", "kept.usm"], 2, "sheet: kept.usm: is there already; --force overwrites it\n"),
    ];
    assert_told(&folder, cases);
    assert_eq!(names_in(&folder), inputs);
    assert_eq!(fs::read(folder.join("in.usm")).expect("kept"), file(&four_groups(0)));
    assert_eq!(fs::read(folder.join("kept.usm")).expect("kept"), b"mine");
}

/// The joins on the page of the samples: one that needs less, and one that makes a European long box.
#[test]
fn the_page_of_the_samples_says_what_is_said() {
    let root = Path::new(env!("CARGO_MANIFEST_DIR")).join("..");
    let page = fs::read_to_string(root.join("samples/README.md")).expect("a page");
    let lines: Vec<&str> = page.lines().collect();
    let joins: Vec<[&str; 2]> = lines
        .windows(2)
        .filter(|pair| pair[0].starts_with("    $ ./sheet join "))
        .map(|pair| [pair[0], pair[1]])
        .collect();
    let wholes = ["samples/iron-condor-in-one-group.usm", "samples/european-box.usm"];
    assert_eq!(joins.len(), wholes.len());
    for ([command, said], whole) in joins.iter().zip(wholes) {
        let words: Vec<&str> = command.split_whitespace().skip(2).collect();
        let joined = run(&root, &[&words[..4], &["-"]].concat(), b"");
        assert_eq!(String::from_utf8(joined.stderr).expect("UTF-8"), format!("{}\n", said.trim_start()));
        assert_eq!(
            (joined.status.code(), joined.stdout),
            (Some(0), fs::read(root.join(whole)).expect(whole))
        );
    }
}
