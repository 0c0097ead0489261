//! The Debian package: unpacked into an empty root, and used there by another user.

use std::fs::{self, File};
use std::path::{Path, PathBuf};
use std::process::Command;

use crate::common;
use crate::compiled::{c_compiler, compile, C};
use crate::machine::{assert_installed, elsewhere, run, sample, script};
use crate::scripts::{on_path, Folder};

/// The package in a folder of its own, or nothing where there is nothing to make it with.
fn package(folder: &Path) -> Option<PathBuf> {
    if on_path("dpkg-deb").is_none() {
        println!("left out, no package was made: there is no dpkg-deb (Debian's package dpkg)");
        return None;
    }
    let told = run(script("package").arg(folder));
    let name = folder.join(format!("usm_{}_amd64.deb", usm::VERSION));
    let message = format!("package: {name} is made; try: dpkg -i {name}\n", name = name.display());
    assert_eq!((told.status, told.out.as_str(), told.err), (0, "", message));
    Some(name)
}

fn dpkg(words: &[&str]) -> String {
    let told = run(Command::new("dpkg-deb").args(words));
    assert_eq!(told.status, 0, "{}", told.err);
    told.out
}

#[test]
fn it_is_used_from_an_empty_root_by_another_user() {
    let folder = Folder::new("package");
    let package = match package(&folder.0) {
        Some(package) => package,
        None => return,
    };
    let (root, tools) = (folder.0.join("root"), folder.0.join("tools"));
    dpkg(&["-x", &package.to_string_lossy(), &root.to_string_lossy()]);
    let usr = root.join("usr");
    assert_installed(&usr);

    let told = run(elsewhere(&tools, &usr.join("bin/sheet")).arg("check").arg(sample("box.usm")));
    assert_eq!((told.status, told.out.as_str()), (0, "ACCEPT 1 0\n"), "{}", told.err);
    let told = run(elsewhere(&tools, &usr.join("bin/sheet")).arg("show").arg(sample("vertical.usm")));
    let text = fs::read_to_string(sample("vertical.txt")).expect("its text, behind a comment");
    assert!(told.status == 0 && told.out.starts_with("holdings\n") && text.ends_with(&told.out), "{told:?}");

    let input = || File::open(sample("vertical.usm")).expect("a sample");
    for (name, printed) in
        [("usm_check", "ACCEPT 1 1000000\n"), ("usm_table", "GROUP 1 1000000\n50000 0\n60000 -1000000\n")]
    {
        let program = usr.join("bin").join(name);
        // Where programs are for another machine the emulator starts them.
        let mut command = match std::env::var_os("USM_RUNNER").filter(|runner| !runner.is_empty()) {
            Some(runner) => {
                let mut command =
                    elsewhere(&tools, &on_path(&runner.to_string_lossy()).expect("an emulator"));
                command.arg(program);
                command
            }
            None => elsewhere(&tools, &program),
        };
        assert_eq!(run(command.stdin(input())).out, printed, "{name}");
    }
}

#[test]
fn its_library_is_one_for_c_and_for_python() {
    let folder = Folder::new("package-library");
    let package = match package(&folder.0) {
        Some(package) => package,
        None => return,
    };
    dpkg(&["-x", &package.to_string_lossy(), &folder.0.to_string_lossy()]);
    let lib = folder.0.join("usr/lib");
    let include = format!("-I{}", folder.0.join("usr/include").display());
    let (here, there) = (format!("-L{}", lib.display()), format!("-Wl,-rpath,{}", lib.display()));
    let shared = [here.as_str(), "-lusm", &there];
    let program = compile("package-shared", &c_compiler(), C, "example.c", &[&include], &shared);
    let told = run(&mut common::program(program));
    let accepted = "usm_check_file: accepted, groups 2, total 1500000 mills, work 8\n";
    assert!(told.status == 0 && told.out.contains(accepted), "{told:?}");

    match on_path("python3").filter(|_| std::env::var_os("USM_RUNNER").is_none()) {
        Some(python) => assert_python_runs(&python, &folder.0.join("usr")),
        None => println!("left out, the package's Python was not tried: it takes python3 on x86-64"),
    }
}

/// The example, where it is unpacked.
fn assert_python_runs(python: &Path, usr: &Path) {
    let example = usr.join("share/doc/usm/example");
    let mut command = Command::new(python);
    command.arg(example.with_extension("py")).arg(example.with_extension("csv"));
    command.env("PYTHONPATH", usr.join("lib/python3/dist-packages")).env_remove("USM_LIBRARY");
    let told = run(&mut command);
    assert_eq!((told.status, told.out.as_str()), (0, "ACCEPT 2 1500000\n"), "{}", told.err);
}

#[test]
fn it_says_what_it_is() {
    let folder = Folder::new("package-fields");
    let package = match package(&folder.0) {
        Some(package) => package,
        None => return,
    };
    let package = package.to_string_lossy();
    for (field, value) in [("Package", "usm"), ("Version", usm::VERSION), ("Architecture", "amd64")] {
        assert_eq!(dpkg(&["-f", &package, field]), format!("{value}\n"));
    }
    assert!(dpkg(&["-f", &package, "Depends"]).contains("libc6 (>= 2."));
    let files = dpkg(&["-c", &package]);
    assert!(files.lines().all(|line| line.split_whitespace().nth(1) == Some("root/root")), "{files}");
}

#[test]
fn what_cannot_be_packed_is_told() {
    let folder = common::folder("package-refused");
    for words in [&[][..], &["a", "b"], &["--frob"], &["no-folder"]] {
        let told = run(script("package").args(words).current_dir(&folder));
        assert!(told.status == 2 && told.err.starts_with("package: "), "{words:?}: {told:?}");
    }
    let told = run(script("package").arg(&folder).env("USM_C_LIB_DIR", "/nowhere"));
    assert_eq!(told.status, 2, "{}", told.err);
    if on_path("dpkg-deb").is_some() {
        assert!(told.err.contains("/nowhere/libusm_c.a is not there: make it with"), "{}", told.err);
    }
    assert_eq!(fs::read_dir(&folder).expect("a folder").count(), 0);
}
