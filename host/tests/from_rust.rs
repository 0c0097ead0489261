//! The program under 'From Rust' on host/README.md: it is `examples/claims.rs`, and it does what the page says.

#![forbid(unsafe_code)]

mod common;

use std::error::Error;
use std::fs;
use std::path::Path;

mod program {
    include!("../examples/claims.rs");

    pub fn run() -> Result<(), Box<dyn std::error::Error>> {
        main()
    }
}

fn section(heading: &str) -> String {
    let page = fs::read_to_string(Path::new(env!("CARGO_MANIFEST_DIR")).join("README.md")).expect("a page");
    let section = page.split("\n## ").find(|section| section.starts_with(heading)).expect("a section");
    String::from(section)
}

/// What a section sets apart behind this line, up to its next prose.
fn set_apart(section: &str, line: &str) -> String {
    let lines = section.lines().skip_while(|other| !other.ends_with(line)).skip(2);
    let lines = lines.take_while(|line| line.is_empty() || line.starts_with("    "));
    let text: String = lines.map(|line| format!("{}\n", line.get(4..).unwrap_or_default())).collect();
    format!("{}\n", text.trim_end())
}

#[test]
fn the_program_on_the_page_is_the_example() {
    assert_eq!(set_apart(&section("From Rust"), "`src/main.rs`:"), include_str!("../examples/claims.rs"));
}

/// The only test here that goes to another folder, which all threads share.
#[test]
fn it_fills_in_the_claims_and_writes_the_file() -> Result<(), Box<dyn Error>> {
    let folder = common::folder("from-rust");
    fs::write(folder.join("mine.txt"), set_apart(&section("A sheet of your own"), "`mine.txt`:"))?;
    std::env::set_current_dir(&folder)?;
    program::run()?;
    assert_eq!(usm::file_line(&fs::read("mine.usm")?), "ACCEPT 1 1000000\n");
    Ok(())
}
