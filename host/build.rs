//! Links the proved library, `libusm_c.a`, which `rt lib` in crates/usm_c makes, and hands on the header's version.

use std::path::PathBuf;
use std::{env, fs, process};

const LIBRARY: &str = "libusm_c.a";
const FOLDER_VARIABLE: &str = "USM_C_LIB_DIR";
const HEADER: &str = "include/usm.h";

fn main() {
    if env::var("CARGO_CFG_TARGET_ARCH").as_deref() != Ok("x86_64") {
        println!(
            "cargo:warning={LIBRARY} links into x86-64 programs only: say ./x86-cargo in place of cargo"
        );
    }
    println!("cargo:rustc-env=USM_VERSION={}", version());
    println!("cargo:rerun-if-env-changed={FOLDER_VARIABLE}");
    let package = PathBuf::from(env::var_os("CARGO_MANIFEST_DIR").expect("cargo names the package"));
    let folder = match env::var_os(FOLDER_VARIABLE) {
        Some(named) => package.join(named),
        None => package.join("../crates/usm_c/out"),
    };
    let library = folder.join(LIBRARY);
    println!("cargo:rerun-if-changed={}", library.display());
    if !library.is_file() {
        eprintln!(
            "{} is not there. Make it with `rt lib` in crates/usm_c, \
             or name the folder that holds it in {FOLDER_VARIABLE}.",
            library.display()
        );
        process::exit(1);
    }
    println!("cargo:rustc-link-search=native={}", folder.display());
    println!("cargo:rustc-link-lib=static=usm_c");
    // The test of the C example links the same archive.
    println!("cargo:rustc-env=USM_C_LIBRARY={}", library.display());
}

/// What the header defines as `USM_VERSION`.
fn version() -> String {
    println!("cargo:rerun-if-changed={HEADER}");
    let header = fs::read_to_string(HEADER).expect(HEADER);
    let defined = header.lines().find_map(|line| line.strip_prefix("#define USM_VERSION \""));
    let version = defined.and_then(|rest| rest.strip_suffix('"')).expect("the header has a version");
    String::from(version)
}
