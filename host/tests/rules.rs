//! The pages: every link leads to a file that is there and to a name that stands in it, and the bytes that
//! docs/RULES.md shows are those of the library.

#![forbid(unsafe_code)]

use std::fs;
use std::path::Path;

use usm::{claim_table, leg_table, Claim, Reason, Refusal, Sheet, Table};
use usm_kit::accounts::{leg, placed};
use usm_kit::both::BOTH;
use usm_kit::repository;

const PAGES: [&str; 9] = [
    "README.md",
    "docs/RULES.md",
    "docs/ARCHITECTURE.md",
    "docs/PROMISES.md",
    "docs/DECISIONS.md",
    "docs/OPEN.md",
    "docs/BENCHMARK.md",
    "host/README.md",
    "host/tests/transcript/README.md",
];

fn page(name: &str) -> String {
    fs::read_to_string(repository().join(name)).unwrap_or_else(|error| panic!("{name}: {error}"))
}

/// The lines of the fence that opens with this word.
fn fence(text: &str, word: &str) -> Vec<String> {
    let opening = format!("```{word}");
    let lines = text.lines().skip_while(|line| *line != opening).skip(1);
    let lines: Vec<String> = lines.take_while(|line| *line != "```").map(String::from).collect();
    assert!(!lines.is_empty(), "docs/RULES.md has no fence ```{word}");
    lines
}

fn bytes(line: &str) -> Vec<u8> {
    line.split_whitespace().map(|word| u8::from_str_radix(word, 16).expect("a byte")).collect()
}

/// `[text](target)` outside of fences, with the number of its line.
fn links(text: &str) -> Vec<(usize, String, String)> {
    let mut found = Vec::new();
    let mut in_fence = false;
    for (number, line) in text.lines().enumerate() {
        in_fence ^= line.starts_with("```");
        let mut rest = if in_fence { "" } else { line };
        while let Some((before, after)) = rest.split_once("](") {
            let (target, further) = after.split_once(')').expect("a link is closed");
            let (_, name) = before.rsplit_once('[').expect("a link is opened");
            found.push((number + 1, name.into(), target.into()));
            rest = further;
        }
    }
    found
}

/// Whether a name stands in a text as a word of its own: not as a part of a longer name.
fn has_word(text: &str, word: &str) -> bool {
    let inside = |c: Option<char>| c.map_or(false, |c| c.is_alphanumeric() || "_-".contains(c));
    text.match_indices(word).any(|(at, _)| {
        let (before, after) = (text[..at].chars().next_back(), text[at + word.len()..].chars().next());
        !inside(before) && !inside(after)
    })
}

/// Whether a name is that of a case of a transcript, or of the transcript itself.
fn has_case(transcript: &Path, name: &str) -> bool {
    let text = fs::read_to_string(transcript).unwrap_or_default();
    let case = name.trim_matches('`');
    let begins = |line: &str| ["== ", "-- "].iter().any(|mark| line.strip_prefix(mark) == Some(case));
    text.lines().any(begins) || transcript.file_name().map_or(false, |file| file == name)
}

/// What is wrong with a link of a page, or nothing.
fn stale(page: &str, name: &str, target: &str) -> Option<String> {
    if target.contains("://") {
        return None;
    }
    let folder = repository().join(page).parent().expect("a folder").to_path_buf();
    let file = folder.join(target.split('#').next().expect("a path"));
    if !file.exists() {
        return Some(format!("[{name}]({target}): there is no such file"));
    }
    if target.contains("tests/transcript/") && target.ends_with(".txt") {
        return (!has_case(&file, name)).then(|| format!("[{name}]({target}): no case of that name"));
    }
    let word = name.strip_prefix('`')?.strip_suffix('`')?;
    let text = fs::read_to_string(&file).unwrap_or_default();
    (!has_word(&text, word)).then(|| format!("[{name}]({target}): `{word}` does not stand in that file"))
}

#[test]
fn every_link_leads_to_what_it_names() {
    let mut wrong = Vec::new();
    for name in PAGES {
        let links = links(&page(name));
        assert!(!links.is_empty(), "{name} has no links");
        for (line, text, target) in links {
            wrong.extend(stale(name, &text, &target).map(|fault| format!("{name}, line {line}: {fault}")));
        }
    }
    assert!(wrong.is_empty(), "{} stale links:\n{}", wrong.len(), wrong.join("\n"));
}

#[test]
fn a_stale_link_is_told() {
    assert!(stale("docs/RULES.md", "`first_of`", "../crates/records/specs/Order.antt").is_none());
    let told =
        stale("docs/RULES.md", "`first_o`", "../crates/records/specs/Order.antt").expect("a part of a name");
    assert!(told.ends_with("`first_o` does not stand in that file"), "{told}");
    let told = stale("docs/RULES.md", "gone", "../crates/gone.rt").expect("no file");
    assert_eq!(told, "[gone](../crates/gone.rt): there is no such file");
    let legs = "../host/tests/transcript/legs.txt";
    assert!(stale("docs/RULES.md", "`side: 1 or 2`", legs).is_none());
    assert!(stale("docs/RULES.md", "legs.txt", legs).is_none());
    for name in ["`side: 1`", "stdin", "`try h L50c -> 1`"] {
        let told = stale("docs/RULES.md", name, legs).expect("no case");
        assert_eq!(told, format!("[{name}]({legs}): no case of that name"));
    }
}

#[test]
fn the_rules_are_linked_from_the_readme() {
    assert!(links(&page("README.md")).iter().any(|(_, _, target)| target == "docs/RULES.md"));
}

/// The headings of document 01, in its order.
#[test]
fn the_rules_stand_under_their_headings() {
    let rules = page("docs/RULES.md");
    let headings: Vec<&str> = rules.lines().filter_map(|line| line.strip_prefix("## ")).collect();
    let expected = [
        "What the library covers",
        "Money, units, legs",
        "The rule of a spread",
        "The rule of a sheet",
        "The file",
        "Refusals in their order",
        "What a signature on a promise is worth",
        "Accounts on the bench",
        "Errors that look right",
        "Code places and their forms",
    ];
    assert_eq!(headings, expected);
    for number in Reason::ALL.map(Reason::number) {
        let row = |line: &str| {
            let cell = line.strip_prefix("| ").and_then(|line| line.split(" |").next()).unwrap_or("");
            cell.split(", ").any(|word| word == number.to_string())
        };
        let refusals = rules.lines().skip_while(|line| *line != "## Refusals in their order");
        assert!(refusals.take_while(|line| *line != "## Accounts on the bench").any(row), "refusal {number}");
    }
}

/// The sheet that docs/RULES.md makes by hand: P1.
fn by_hand() -> Sheet {
    placed(&[leg("L60c"), leg("S50c")], &[1_000_000])
}

#[test]
fn the_leg_and_the_claim_are_those_of_the_library() {
    let rules = page("docs/RULES.md");
    assert_eq!(bytes(&fence(&rules, "leg").join(" ")), leg_table(&[leg("L60c")]));
    assert_eq!(
        bytes(&fence(&rules, "claim").join(" ")),
        claim_table(&[Claim { group: 1, margin: 1_000_000 }])
    );
}

#[test]
fn the_file_by_hand_is_the_one_the_library_writes_and_accepts() {
    let mut file = vec![0; 1536];
    for line in fence(&page("docs/RULES.md"), "file") {
        let (at, row) = line.split_once(": ").expect("a place and its bytes");
        let at = usize::from_str_radix(at, 16).expect("a place");
        file[at..at + 16].copy_from_slice(&bytes(row));
    }
    assert_eq!(by_hand().to_file(), Ok(file.clone()));
    for calls in &BOTH {
        assert_eq!((calls.file_line)(&file), "ACCEPT 1 1000000\n", "{}", calls.name);
    }
}

/// The table of products under the file, and the two sums.
#[test]
fn the_checks_worked_by_hand_are_right() {
    let rules = page("docs/RULES.md");
    let row = |name: &str| -> Vec<usize> {
        let start = format!("| {name} |");
        let line =
            rules.lines().find(|line| line.starts_with(&start)).unwrap_or_else(|| panic!("no row {name}"));
        line[start.len()..].split('|').filter_map(|cell| cell.trim().parse().ok()).collect()
    };
    let file = by_hand().to_file().expect("a file");
    let block = &file[1024..];
    let places: Vec<usize> = (0..508).filter(|&i| block[i] != 0).collect();
    let of = |value: &dyn Fn(usize) -> usize| places.iter().map(|&i| value(i)).collect::<Vec<usize>>();
    assert_eq!(row("i"), places);
    assert_eq!(row("byte i"), of(&|i| usize::from(block[i])));
    assert_eq!(row("508 - i"), of(&|i| 508 - i));
    assert_eq!(row("product"), of(&|i| (508 - i) * usize::from(block[i])));
    let (a, b): (usize, usize) = (row("byte i").iter().sum(), row("product").iter().sum());
    assert_eq!((a, b, b % 65_536), (449, 224_063, 27_455));
    assert_eq!(block[508..], [0xc1, 0x01, 0x3f, 0x6b]);
    for words in ["add up to 449", "add up to 224,063", "B is 27,455"] {
        assert!(rules.contains(words), "{words}");
    }
}

/// A row of a table of fields: its bytes, its name, and the least and the greatest value.
struct Field {
    bytes: std::ops::Range<usize>,
    name: String,
    least: u64,
    greatest: u64,
}

/// The numbers in a text, without their commas.
fn numbers(text: &str) -> Vec<u64> {
    let plain = text.replace(',', "");
    plain.split(|c: char| !c.is_ascii_digit()).filter_map(|word| word.parse().ok()).collect()
}

/// The rows `| bytes | field | range |` under a heading. A range is its least and its greatest number, or zero.
fn fields(heading: &str) -> Vec<Field> {
    let rules = page("docs/RULES.md");
    let table =
        rules.lines().skip_while(|line| *line != heading).skip_while(|line| !line.starts_with("|---"));
    let rows = table.skip(1).take_while(|line| line.starts_with('|'));
    rows.map(|row| {
        let cells: Vec<&str> = row.split('|').map(str::trim).collect();
        let places = numbers(cells[1]);
        let range = numbers(cells[3]);
        let [least, greatest] = [range.iter().min(), range.iter().max()].map(|end| *end.unwrap_or(&0));
        assert!(!range.is_empty() || cells[3] == "zero", "{row}");
        let (first, last) = (places[0] as usize, *places.last().expect("a place") as usize);
        Field { bytes: first..last + 1, name: cells[2].into(), least, greatest }
    })
    .collect()
}

/// Each field takes its least and its greatest value, and neither less nor more, by library and model.
fn assert_ranges(fields: &[Field], record: &[u8], table: Table) {
    let all: Vec<usize> = fields.iter().flat_map(|field| field.bytes.clone()).collect();
    assert_eq!(all, (0..32).collect::<Vec<usize>>(), "every byte is in one row");
    let refused = Err(Refusal::new(4, table as u64, 0));
    for Field { bytes, name, least, greatest } in fields {
        let below = least.checked_sub(1).map(|value| (value, &refused));
        let above = Some((greatest + 1, &refused));
        for (value, expected) in
            [Some((*least, &Ok(1))), Some((*greatest, &Ok(1))), below, above].into_iter().flatten()
        {
            let mut changed = record.to_vec();
            let digits = value.to_le_bytes();
            if bytes.len() < 8 && value >> (8 * bytes.len()) != 0 {
                continue; // the field has no room for it
            }
            for (place, at) in bytes.clone().enumerate() {
                changed[at] = digits.get(place).copied().unwrap_or(0);
            }
            for calls in &BOTH {
                assert_eq!(&(calls.check_table)(table, &changed), expected, "{name} {value}, {}", calls.name);
            }
        }
    }
}

#[test]
fn the_ranges_of_a_leg_and_of_a_claim_are_those_of_the_library() {
    let (legs, claims) = (fields("### A leg record"), fields("### A claim record"));
    assert_eq!((legs.len(), claims.len()), (13, 4));
    assert_ranges(&legs, &leg_table(&[leg("L60c")]), Table::Placement);
    assert_ranges(&claims, &claim_table(&[Claim { group: 1, margin: 1_000_000 }]), Table::Claims);
}
