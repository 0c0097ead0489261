//! The page of a refused sheet: its sentence, its place, and what would have to change.

use usm::{check_file, sentences, Leg, Market, Refusal, Sheet, Style};
use usm_kit::accounts::{in_group, leg, placed, times};

use crate::reader::{body, pieces, table, tables, tags, texts, Piece, Table};
use crate::{page_of, sample, sample_names};

/// Each test has a thread of its own, and a folder.
fn read(file: &[u8]) -> (Refusal, Vec<Piece>, Vec<Table>) {
    let refusal = check_file(file).expect_err("a refused sheet");
    let folder = format!("page-refused-{:?}", std::thread::current().id());
    let pieces = pieces(body(&page_of(&folder, &[("sheet.usm", file)])));
    let tables = tables(&pieces);
    (refusal, pieces, tables)
}

/// The first cells of the rows of a class.
fn marked<'a>(table: &'a Table, class: &str) -> Vec<&'a str> {
    table.rows.iter().filter(|(found, _)| found == class).map(|(_, cells)| cells[0].as_str()).collect()
}

/// All marks of a page: captions, and the records that are marked in them.
fn marks<'a>(tables: &'a [Table], class: &str) -> Vec<(&'a str, &'a str)> {
    let of_table =
        |table: &'a Table| marked(table, class).into_iter().map(move |row| (table.caption.as_str(), row));
    tables.iter().flat_map(of_table).collect()
}

/// Also what would have to change, of each refusal that a sheet can have and of a damaged file.
#[test]
fn every_refused_sample_has_its_sentence_and_a_link_that_leads_there() {
    let mut refused = 0;
    for name in sample_names() {
        let file = sample(&name);
        if check_file(&file).is_ok() {
            continue;
        }
        let (refusal, pieces, _) = read(&file);
        let sentence = sentences::of_file(&file, &refusal).replace('`', "");
        let said = texts(&pieces, "p");
        assert!(said.iter().any(|text| text.contains(&format!("Refused: {sentence}. "))), "{name}: {said:?}");
        assert_eq!(said[0], refusal.line().trim_end(), "{name}");
        let ids: Vec<&str> = pieces
            .iter()
            .filter_map(|piece| if let Piece::Open(tag) = piece { tag.get("id") } else { None })
            .collect();
        let links: Vec<&str> = tags(&pieces, "a").filter_map(|link| link.get("href")).collect();
        assert_eq!(links.len(), usize::from(refusal.number != 1), "{name}: only a wrong size has no place");
        assert!(links.iter().all(|link| ids.contains(&link.trim_start_matches('#'))), "{name}: {links:?}");
        let headings = texts(&pieces, "h3");
        assert!(headings.iter().any(|text| text == "What would have to change"), "{name}: {headings:?}");
        refused += 1;
    }
    assert!(refused >= 15, "{refused} refused samples");
}

#[test]
fn the_very_leg_is_marked_and_the_earlier_one() {
    let group_2 = |leg: Leg| in_group(2, leg);
    let spread = [leg("L60c"), leg("S50c")];
    for (number, second) in [
        (7, Leg { underlying: 8, ..leg("S50c") }),
        (8, Leg { style: Style::European, ..leg("S50c") }),
        (9, Leg { market: Market::Otc, ..leg("S50c") }),
        (10, Leg { side: usm::Side::Short, ..leg("L60c") }),
        (13, Leg { expiry: 20110618, ..leg("S50c") }),
    ] {
        let legs = [spread[0], group_2(leg("L60c")), spread[1], group_2(second)];
        let (refusal, _, tables) = read(&placed(&legs, &[1_000_000, 0]).to_file().expect("a file"));
        assert_eq!((refusal.number, refusal.table, refusal.place), (number, 2, 3));
        assert_eq!(marks(&tables, "marked"), [("Placement: group 2", "4")], "{number}");
        assert_eq!(marks(&tables, "earlier"), [("Placement: group 2", "2")], "{number}");
    }
}

#[test]
fn records_groups_and_blocks_are_marked_where_they_stand() {
    for (name, caption, row) in [
        ("unplaced-short.usm", "Placement: in no group", "3"),
        ("unpaid-unplaced-long.usm", "Placement: in no group", "1"),
        ("european-against-american.usm", "Holdings", "2"),
        ("claim-one-mill-short.usm", "Claims", "2"),
        ("no-such-date.usm", "Holdings", "1"),
        ("damaged-block.usm", "Blocks of the file, as each says of itself", "2"),
        ("two-accounts-joined.usm", "Blocks of the file, as each says of itself", "3"),
        ("kinds-that-fall.usm", "Blocks of the file, as each says of itself", "3"),
    ] {
        let (_, _, tables) = read(&sample(name));
        assert_eq!(marks(&tables, "marked"), [(caption, row)], "{name}");
        assert!(marks(&tables, "earlier").is_empty(), "{name}");
    }
    let about = |file: &[u8]| {
        let (_, pieces, _) = read(file);
        let groups = tags(&pieces, "section").filter(|tag| tag.get("class") == Some("marked group")).count();
        (groups, texts(&pieces, "p").iter().any(|text| text == "The refusal is about this group."))
    };
    let no_leg = placed(&[leg("L60c"), leg("S50c")], &[1_000_000, 0]).to_file().expect("a file");
    for file in [sample("puts-pay-for-calls.usm"), sample("claim-one-mill-short.usm"), no_leg] {
        assert_eq!(about(&file), (1, true));
    }
}

#[test]
fn both_amounts_are_told_that_have_to_be_equal() {
    let two = |caption: &str, file: &[u8]| -> Vec<String> {
        let (_, _, tables) = read(file);
        table(&tables, caption).records().iter().map(|row| row.join(" ")).collect()
    };
    assert_eq!(
        two("Claimed and due", &sample("claim-one-mill-short.usm")),
        ["Claimed $499.999 (499999 mills)", "Due $500.000 (500000 mills)"]
    );
    let units = placed(&[times(12_345, "L60p"), leg("S50p")], &[0]).to_file().expect("a file");
    assert_eq!(two("Units on each side", &units), ["Long 1,234,500", "Short 100"]);
    let sheet = placed(&[leg("L60c"), leg("S50c")], &[1_000_000]);
    let held = [in_group(0, times(1_500, "L60c")), in_group(0, leg("S50c"))];
    let more = Sheet { holdings: held.to_vec(), ..sheet }.to_file().expect("a file");
    assert_eq!(two("Contracts of this line and side", &more), ["Held 1,500", "Placed 1"]);
}

/// The mark is for all of them, and one may not be paid for.
#[test]
fn of_an_unplaced_long_it_is_told_that_every_one_is_marked() {
    let (_, pieces, _) = read(&sample("unpaid-unplaced-long.usm"));
    let advice =
        "The long would have to stand in a group; or, if it is paid for in full, be marked as paid. \
                  sheet mark-paid FILE OUT marks every unplaced long of the sheet.";
    assert!(texts(&pieces, "p").iter().any(|text| text == advice), "{:?}", texts(&pieces, "p"));
}

#[test]
fn the_account_of_a_refused_sheet_stands_beside_its_line() {
    let sheet = Sheet { account: 4711, ..placed(&[leg("L60c"), leg("S50c")], &[0]) };
    let (_, pieces, _) = read(&sheet.to_file().expect("a file"));
    assert_eq!(texts(&pieces, "p")[0], "REFUSE 16 3 1, account 4711");
}

/// Of a text its sentence has said what to do, and its bytes are no blocks.
#[test]
fn a_text_is_not_shown_as_a_sheet() {
    for text in [&b"holdings\n"[..], &[b'#'; 512]] {
        let (_, pieces, tables) = read(text);
        assert!(texts(&pieces, "h3").is_empty() && tables.is_empty());
        assert!(texts(&pieces, "p")[1].contains("sheet make TEXT OUT"), "what to do");
    }
}
