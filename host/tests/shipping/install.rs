//! `install PREFIX`: what it puts there, whom it serves, and what it refuses.

use std::fs;
use std::path::Path;
use std::process::Command;

use crate::common;
use crate::compiled::{c_compiler, compile, library, C};
use crate::machine::{assert_installed, elsewhere, run, sample, script, PAGES};
use crate::scripts::Folder;

fn installed(prefix: &Path) {
    let told = run(script("install").arg(prefix));
    assert_eq!((told.status, told.out.as_str()), (0, ""), "{}", told.err);
}

#[test]
fn all_of_it_is_there_for_every_user() {
    let folder = Folder::new("installed");
    let prefix = folder.0.join("usr");
    installed(&prefix);
    assert_installed(&prefix);
    let (tools, sheet) = (folder.0.join("tools"), prefix.join("bin/sheet"));
    let version = run(elsewhere(&tools, &sheet).arg("--version"));
    assert_eq!((version.status, version.out), (0, format!("sheet {}\n", usm::VERSION)), "{}", version.err);
    let told = run(elsewhere(&tools, &sheet).arg("check").arg(sample("box.usm")));
    assert_eq!((told.status, told.out.as_str()), (0, "ACCEPT 1 0\n"), "{}", told.err);
    // Through the shell, and with streams that are closed.
    for (line, status) in [("\"$0\" check - <&-", 2), ("\"$0\" help >&-", 2), ("\"$0\" help >&2", 0)] {
        let mut shell = elsewhere(&tools, &tools.join("bash"));
        assert_eq!(run(shell.args(["-c", line]).arg(&sheet)).status, status, "{line}");
    }
}

#[test]
fn the_pages_are_whole() {
    let prefix = common::folder("install-pages");
    installed(&prefix);
    let page = |name: &str| fs::read_to_string(prefix.join("share/man").join(name)).expect("a page");
    for name in PAGES {
        let text = page(name);
        let start = format!("\"usm {}\"", usm::VERSION);
        assert!(text.lines().next().expect("a title").contains(&start), "{name}");
        assert!(!text.contains("@VERSION@") && !text.contains("@HELP@"), "{name}: all is filled in");
        assert_reads(&prefix.join("share/man").join(name));
    }
    let help = run(common::program(env!("CARGO_BIN_EXE_usm_sheet")).arg("help")).out;
    let told = page("man1/sheet.1").replace("\\-", "-").replace("\\&", "").replace("\\e", "\\");
    assert!(told.contains(&help), "the page of the tool has its help");
    let header = fs::read_to_string(prefix.join("include/usm.h")).expect("the header");
    let calls = header.lines().filter_map(|line| line.split('(').next()?.strip_prefix("uint64_t "));
    for call in calls.chain(["usm_file_line", "usm_file_table"]) {
        assert!(page("man3/usm.3").contains(call), "usm(3) names {call}");
    }
    let log = fs::read_to_string(prefix.join("share/doc/usm/CHANGELOG.md")).expect("the log");
    let (minor, _) = usm::VERSION.rsplit_once('.').expect("three numbers");
    assert!(log.contains(&format!("\n## {minor}\n")), "the log tells of {minor}");
}

/// Where there is groff, it has nothing to say against the page.
fn assert_reads(page: &Path) {
    if let Ok(read) = Command::new("groff").args(["-man", "-Tascii", "-ww"]).arg(page).output() {
        assert_eq!(String::from_utf8_lossy(&read.stderr), "", "{}", page.display());
    }
}

#[test]
fn a_program_compiles_against_the_installed_library() {
    let prefix = common::folder("install").join("with a blank");
    installed(&prefix);
    let [include, lib] = ["include", "lib"].map(|folder| prefix.join(folder));
    let archive = fs::read(lib.join("libusm_c.a")).expect("the library");
    assert_eq!(archive, fs::read(library()).expect("the library"));
    let flags = format!("-I{}", include.display());
    let libraries = [format!("-L{}", lib.display()), String::from("-lusm_c")];
    let linked = [libraries[0].as_str(), &libraries[1]];
    let program = compile("installed-example", &c_compiler(), C, "example.c", &[&flags], &linked);
    let told = run(&mut common::program(program));
    let accepted = "usm_check_file: accepted, groups 2, total 1500000 mills, work 8\n";
    assert!(told.status == 0 && told.out.contains(accepted), "{told:?}");
    assert_package_says(&lib.join("pkgconfig"), &[&flags, &libraries[0], &libraries[1]]);
}

/// What pkg-config says of the package is these flags; where there is none, the file is there at least.
fn assert_package_says(folder: &Path, flags: &[&String]) {
    let package = fs::read_to_string(folder.join("usm.pc")).expect("the package's file");
    assert!(package.contains(&format!("Version: {}\n", usm::VERSION)), "{package}");
    let said = Command::new("pkg-config")
        .args(["--cflags", "--libs", "usm"])
        .env("PKG_CONFIG_PATH", folder)
        .output();
    if let Ok(said) = said {
        let escaped: Vec<String> = flags.iter().map(|flag| flag.replace(' ', "\\ ")).collect();
        assert_eq!(String::from_utf8_lossy(&said.stdout).trim(), escaped.join(" "));
    }
}

#[test]
fn prefix_and_destination_may_be_said_in_every_way() {
    let folder = common::folder("install-ways");
    let prefix_in = |below: &Path| {
        let package = fs::read_to_string(below.join("lib/pkgconfig/usm.pc")).expect("the package's file");
        package.lines().next().expect("a line").to_string()
    };
    let relative = run(script("install").arg("--prefix=relative/one").current_dir(&folder));
    assert_eq!(relative.status, 0, "{}", relative.err);
    assert_installed(&folder.join("relative/one"));
    assert_eq!(prefix_in(&folder.join("relative/one")), format!("prefix={}/relative/one", folder.display()));
    let staged = run(script("install").arg("/usr/local").env("DESTDIR", folder.join("stage")));
    assert_eq!(staged.status, 0, "{}", staged.err);
    assert_installed(&folder.join("stage/usr/local"));
    assert_eq!(prefix_in(&folder.join("stage/usr/local")), "prefix=/usr/local");
}

#[test]
fn what_is_not_understood_is_refused_and_nothing_is_made() {
    let folder = common::folder("install-refused");
    let usage = "usage: install PREFIX, or install --prefix=PREFIX\n";
    for (words, message) in [
        (&[][..], format!("install: {usage}")),
        (&["a", "b"], format!("install: {usage}")),
        (&[""], format!("install: {usage}")),
        (&["--prefix"], format!("install: there is no option --prefix; {usage}")),
        (&["--prefix="], format!("install: there is no option --prefix=; {usage}")),
        (&["--destdir=/x"], format!("install: there is no option --destdir=/x; {usage}")),
    ] {
        let told = run(script("install").args(words).current_dir(&folder));
        assert_eq!((told.status, told.err), (2, message), "{words:?}");
    }
    for variable in ["USM_C_LIB_DIR", "USM_CHECK", "USM_TABLE", "USM_SHEET"] {
        let told = run(script("install").arg("prefix").env(variable, "/nowhere").current_dir(&folder));
        assert_eq!(told.status, 2, "{variable}");
        assert!(told.err.contains("/nowhere") && told.err.contains("is not there: make it with"), "{told:?}");
    }
    assert_eq!(fs::read_dir(&folder).expect("a folder").count(), 0);
}

#[test]
fn what_cannot_be_put_there_is_told_and_nothing_is_lost() {
    let folder = common::folder("install-in-the-way");
    let in_the_way = folder.join("file");
    fs::write(&in_the_way, "mine").expect("a file");
    assert_eq!(run(script("install").arg(&in_the_way)).status, 2);
    assert_eq!(fs::read(&in_the_way).expect("kept"), b"mine");
    let prefix = folder.join("prefix");
    fs::create_dir_all(prefix.join("lib/libusm_c.a/mine")).expect("a folder");
    let told = run(script("install").arg(&prefix));
    let message = format!("install: {}/lib/libusm_c.a could not be written, ", prefix.display());
    assert!(told.status == 2 && told.err.contains(&message), "{told:?}");
    assert!(prefix.join("lib/libusm_c.a/mine").is_dir());
}

#[test]
fn an_archive_that_allows_no_shared_library_is_installed_without_one() {
    let folder = common::folder("install-static");
    fs::write(folder.join("libusm_c.a"), "no archive").expect("a file");
    let prefix = folder.join("prefix");
    let told = run(script("install").arg(&prefix).env("USM_C_LIB_DIR", &folder));
    assert_eq!(told.status, 0, "{}", told.err);
    assert!(
        told.err.starts_with("install: there is no shared library, and so nothing for Python: "),
        "{told:?}"
    );
    assert_eq!(fs::read(prefix.join("lib/libusm_c.a")).expect("the library"), b"no archive");
    assert!(!prefix.join("lib/python3").exists() && !prefix.join("lib/libusm.so.0").exists());
}
