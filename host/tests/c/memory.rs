//! Lent memory that was never written, under valgrind.

use std::env;
use std::path::{Path, PathBuf};
use std::process::{Command, Output};

use crate::compiled::{assert_prints, c_compiler, compile, library, package, C};
use crate::programs::EXAMPLE;

/// Why the tests are left out, where they are.
fn left_out(why: &str) {
    println!("left out, nothing was tried under valgrind: {why}");
}

/// The library and the C compiler for the machine at hand: valgrind runs no others.
fn native() -> Option<(PathBuf, String)> {
    if env::var_os("USM_RUNNER").is_none() {
        return Some((library().to_owned(), c_compiler()));
    }
    let archive = package().join("../target/native/libusm_c.a");
    archive.is_file().then(|| (archive, String::from("cc")))
}

fn under_valgrind(source: &str, archive: &Path, compiler: &str) -> Output {
    let include = format!("-I{}", package().join("include").display());
    let folder = format!("{source}-under-valgrind");
    let program = compile(&folder, compiler, C, source, &["-g", &include], &[&archive.to_string_lossy()]);
    let mut valgrind = Command::new("valgrind");
    valgrind.args(["--quiet", "--error-exitcode=9"]).arg(program).output().expect("valgrind runs")
}

fn assert_clean(source: &str, printed: &str) {
    if Command::new("valgrind").arg("--version").output().is_err() {
        return left_out("it is not there (Debian's package is of that name)");
    }
    match native() {
        None => left_out("there is no library for this machine itself; host/native-library makes it"),
        Some((archive, compiler)) => {
            let output = under_valgrind(source, &archive, &compiler);
            assert_eq!(String::from_utf8_lossy(&output.stderr), "", "{source}: what valgrind says");
            assert_prints(&output, printed);
        }
    }
}

#[test]
fn the_c_example_reads_nothing_that_it_has_not_written() {
    assert_clean("example.c", EXAMPLE);
}

#[test]
fn no_call_reads_what_it_has_not_written() {
    assert_clean("unwritten.c", "all that was written was looked at\n");
}
