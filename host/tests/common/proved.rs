//! The proved programs, `usm_check`, `usm_table` and `bench`, and the samples they are tried on.

use std::fs;
use std::io::Write;
use std::path::PathBuf;
use std::process::Stdio;
use std::thread::sleep;
use std::time::Duration;
use usm_kit::repository;

/// The program of this name: where `USM_CHECK`, `USM_TABLE` or `USM_BENCH` says, or where `rt run` and `rt ci` put it.
pub fn built(name: &str) -> PathBuf {
    let variable = format!("USM_{}", name.trim_start_matches("usm_").to_uppercase());
    let built = repository().join("crates").join(name).join("out").join(name);
    let program = std::env::var_os(&variable).map_or(built, PathBuf::from);
    assert!(
        program.is_file(),
        "{} is not there: `rt run` in crates/{name} makes it, or {variable} names another",
        program.display()
    );
    program
}

/// What a program prints for an input that comes in these pieces, with a pause after each.
pub fn printed(name: &str, pieces: &[&[u8]], pause: Duration) -> String {
    let mut command = super::program(built(name));
    let mut child = command.stdin(Stdio::piped()).stdout(Stdio::piped()).spawn().expect(name);
    let mut input = child.stdin.take().expect("piped");
    for piece in pieces {
        // The program stops reading at one byte too many; that is not this test's failure.
        let _ = input.write_all(piece).and_then(|()| input.flush());
        sleep(pause);
    }
    drop(input);
    let output = child.wait_with_output().expect(name);
    assert!(output.status.success());
    String::from_utf8(output.stdout).expect("UTF-8")
}

/// The names of the samples, and their bytes.
pub fn samples() -> Vec<(String, Vec<u8>)> {
    let folder = repository().join("samples");
    let entries = fs::read_dir(folder).expect("the samples").map(|entry| entry.expect("an entry").path());
    let sheets = entries.filter(|path| path.extension().map_or(false, |kind| kind == "usm"));
    let samples: Vec<(String, Vec<u8>)> =
        sheets.map(|path| (path.display().to_string(), fs::read(&path).expect("a sample"))).collect();
    assert!(samples.len() >= 12, "a dozen samples");
    samples
}
