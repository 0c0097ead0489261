//! A full sheet (256/256/32), and texts as long as they may be.

use usm::{text, Leg, Sheet};
use usm_kit::accounts::{leg, placed};

use crate::{folder, run, told, VERTICAL};

/// 32 groups of 8 legs, with g contracts in each of group g. From 63 dollars up the three call verticals lose
/// a thousand dollars a contract each, and so no two margins are the same.
fn full_sheet() -> Sheet {
    let legs = (1..=32).flat_map(|group| {
        ["S50c", "L60c", "S51c", "L61c", "S52c", "L62c", "S53p", "L63p"].map(|notation| Leg {
            group,
            contracts: u32::from(group),
            ..leg(notation)
        })
    });
    let margins: Vec<i64> = (1..=32).map(|group| group * 3_000_000).collect();
    placed(&legs.collect::<Vec<Leg>>(), &margins)
}

#[test]
fn every_group_has_its_own_margin() {
    let sheet = full_sheet();
    for claim in &sheet.claims {
        let group = u64::from(claim.group);
        assert_eq!(sheet.margin(group), Ok(claim.margin), "group {group}");
        let worst = sheet.worksheet(group).map(|rows| rows.into_iter().map(|(_, net)| net).min());
        assert_eq!(worst, Ok(Some(-claim.margin)), "group {group}");
    }
}

#[test]
fn a_full_sheet_goes_through_the_tool() {
    let folder = folder("tool-fullest");
    let sheet = full_sheet();
    assert_eq!((sheet.holdings.len(), sheet.placement.len(), sheet.claims.len()), (256, 256, 32));
    let total: i64 = sheet.claims.iter().map(|claim| claim.margin).sum();
    let made = run(&folder, &["make", "-", "full.usm"], text::show(&sheet).as_bytes());
    assert_eq!(told(made), (0, String::new(), String::new()));
    let (status, line, _) = told(run(&folder, &["check", "full.usm"], b""));
    assert_eq!((status, line), (0, format!("ACCEPT 32 {total}\n")));
    assert_eq!(told(run(&folder, &["show", "full.usm"], b"")).1, text::show(&sheet));
    let (status, margins, _) = told(run(&folder, &["margins", "full.usm"], b""));
    assert_eq!((status, margins.lines().count()), (0, 32));
    for (claim, line) in sheet.claims.iter().zip(margins.lines()) {
        let words: Vec<&str> = line.split_whitespace().take(3).collect();
        assert_eq!(words, ["group", &claim.group.to_string(), &claim.margin.to_string()]);
    }
}

#[test]
fn a_text_may_have_a_mebibyte() {
    let folder = folder("tool-longest");
    let padded = |length: usize| format!("{VERTICAL}{}", "#".repeat(length - VERTICAL.len()));
    let made = run(&folder, &["make", "-", "-"], padded(1 << 20).as_bytes());
    assert_eq!(usm::file_line(&made.stdout), "ACCEPT 1 1000000\n");
    let (status, made, message) = told(run(&folder, &["make", "-", "-"], padded((1 << 20) + 1).as_bytes()));
    let too_long = "sheet: -: a text longer than 1048576 bytes is no sheet\n";
    assert_eq!((status, made.as_str(), message.as_str()), (2, "", too_long));
}
