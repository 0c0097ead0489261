//! Programs of `c/`, compiled with all warnings as errors.

use std::env;
use std::path::{Path, PathBuf};
use std::process::{Command, Output};

use crate::common;

pub fn package() -> &'static Path {
    Path::new(env!("CARGO_MANIFEST_DIR"))
}

pub fn library() -> &'static Path {
    Path::new(env!("USM_C_LIBRARY"))
}

pub fn c_compiler() -> String {
    env::var("CC").unwrap_or_else(|_| String::from("cc"))
}

/// The C++ compiler: the one that CXX names, or the one beside the C compiler. Where programs are for
/// another kind of machine there need not be one.
pub fn cxx_compiler() -> Option<String> {
    let beside = match c_compiler().strip_suffix("gcc") {
        Some(prefix) => format!("{prefix}g++"),
        None => String::from("c++"),
    };
    let compiler = env::var("CXX").unwrap_or(beside);
    let there = Command::new(&compiler).arg("--version").output().is_ok();
    let cross = env::var_os("USM_RUNNER").is_some();
    assert!(there || cross, "`{compiler}` is not there: a C++ compiler is `c++`, or the one that CXX names");
    there.then_some(compiler)
}

pub const C: [&str; 2] = ["-x", "c"];
pub const CXX: [&str; 2] = ["-x", "c++"];

/// Compiles a program of `c/` as this language into a folder of its own, with these flags before and
/// behind it.
pub fn compile(
    folder: &str,
    compiler: &str,
    language: [&str; 2],
    source: &str,
    flags: &[&str],
    libraries: &[&str],
) -> PathBuf {
    let standard = if language == CXX { "-std=c++11" } else { "-std=c11" };
    let program = common::folder(folder).join("program");
    let compiled = Command::new(compiler)
        .args([standard, "-Wall", "-Wextra", "-Werror", "-pedantic", "-pthread"])
        .args(flags)
        .args(language)
        .arg(package().join("c").join(source))
        .args(["-x", "none"])
        .args(libraries)
        .arg("-o")
        .arg(&program)
        .output()
        .expect("a C compiler: `cc`, or the one that CC names");
    assert!(compiled.status.success(), "{}", String::from_utf8_lossy(&compiled.stderr));
    program
}

/// Compiles a program against the header and the archive where they stand, and runs it.
pub fn run(compiler: &str, language: [&str; 2], source: &str) -> Output {
    let include = format!("-I{}", package().join("include").display());
    let folder = format!("{source}-as-{}", language[1]);
    let program = compile(&folder, compiler, language, source, &[&include], &[&library().to_string_lossy()]);
    common::program(program).output().expect("the program runs")
}

#[track_caller]
pub fn assert_prints(output: &Output, printed: &str) {
    assert_eq!(String::from_utf8_lossy(&output.stdout), printed);
    assert!(output.status.success());
}
