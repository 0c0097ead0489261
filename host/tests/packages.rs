//! The packages of the host side: every test in this folder is one of theirs, and the model has no way to the library.

#![forbid(unsafe_code)]

use std::fs;
use std::path::Path;

use usm_kit::repository;

fn manifest(package: &str) -> String {
    fs::read_to_string(repository().join("host").join(package).join("Cargo.toml")).expect(package)
}

/// The tests that a manifest lists, by their paths in this folder.
fn listed(package: &str) -> Vec<String> {
    let manifest = manifest(package);
    let paths = manifest.lines().filter_map(|line| line.strip_prefix("path = \"")?.strip_suffix('"'));
    paths.filter_map(|path| path.trim_start_matches("../").strip_prefix("tests/")).map(String::from).collect()
}

/// The tests that cargo would find in this folder by itself.
fn standing(folder: &Path) -> Vec<String> {
    let names = fs::read_dir(folder).expect("the tests").map(|entry| entry.expect("an entry").file_name());
    let names = names.map(|name| name.into_string().expect("a name"));
    let test = |name: String| match name.ends_with(".rs") {
        true => name,
        false => format!("{name}/main.rs"),
    };
    names.map(test).filter(|test| folder.join(test).is_file()).collect()
}

#[test]
fn every_test_belongs_to_one_package() {
    let mut listed = [listed("."), listed("kit")].concat();
    let mut standing = standing(&repository().join("host/tests"));
    listed.sort();
    standing.sort();
    assert_eq!(listed, standing);
}

/// What a package depends on, its tests apart.
fn dependencies(package: &str) -> Vec<String> {
    let manifest = manifest(package);
    let lines = manifest.lines().skip_while(|line| *line != "[dependencies]").skip(1);
    let lines = lines.take_while(|line| !line.starts_with('['));
    lines.filter_map(|line| Some(String::from(line.split_once(" = ")?.0))).collect()
}

/// Only the product links the library.
#[test]
fn the_model_has_no_way_to_the_library() {
    assert_eq!(dependencies("values"), Vec::<String>::new());
    assert_eq!(dependencies("model"), ["usm_values"]);
    assert_eq!(dependencies("."), ["usm_values"]);
    assert_eq!(dependencies("kit"), ["usm", "usm_model", "usm_values"]);
    for package in ["values", "model", "kit"] {
        let folder = repository().join("host").join(package);
        assert!(!folder.join("build.rs").exists() && !manifest(package).contains("links ="), "{package}");
    }
}
