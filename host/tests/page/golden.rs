//! Five pages against those that are kept in `golden/`, without their style and with a line for each tag. After a
//! change that is meant, `USM_WRITE_PAGES=1` writes them again, to be read through.

use std::fs;
use std::path::Path;

use crate::reader::body;
use crate::{page_of, sample};

const KEPT: [&str; 5] = [
    "iron-condor-in-two-groups",
    "european-box",
    "lone-unplaced-long",
    "claim-one-mill-short",
    "short-outlives-a-long",
];

/// The body with a line for each tag, and the version as a word.
fn normalised(page: &str) -> String {
    let lines: String = body(page).replace('<', "\n<").replace('>', ">\n");
    let lines = lines.replace(&format!("sheet {}", usm::VERSION), "sheet VERSION");
    lines.lines().filter(|line| !line.trim().is_empty()).map(|line| format!("{line}\n")).collect()
}

#[test]
fn five_pages_are_those_that_are_kept() {
    let folder = Path::new(env!("CARGO_MANIFEST_DIR")).join("tests/page/golden");
    for name in KEPT {
        let file = format!("{name}.usm");
        let found = normalised(&page_of(&format!("page-golden-{name}"), &[(&file, &sample(&file))]));
        let kept = folder.join(format!("{name}.html"));
        if std::env::var_os("USM_WRITE_PAGES").is_some() {
            fs::write(&kept, &found).expect("the page is kept");
        }
        let expected =
            fs::read_to_string(&kept).unwrap_or_else(|error| panic!("{}: {error}", kept.display()));
        for (number, (found, expected)) in (1..).zip(found.lines().zip(expected.lines())) {
            assert_eq!(found, expected, "{name}, line {number}");
        }
        assert_eq!(found, expected, "{name}");
    }
}
