//! README's first command on a machine where something is missing: the toolchain, cargo, a C compiler. The
//! gate and `x86-cargo` run on a path of the test's own, where stand-ins tell what they were asked.

#![forbid(unsafe_code)]

mod machine;
#[path = "../common/scripts.rs"]
mod scripts;

use std::fs;

use machine::{ending, Machine, CARGO, OK, PACKAGES};
use scripts::put_script;

const NOT_BEGUN: &str = "0 passed, 1 failed";
const PARTS: [&str; 4] = ["laws ", "rt in clone: ci", "rt in usm_c: lib", "edits "];

#[test]
fn with_all_there_nothing_is_installed_and_everything_counted() {
    let machine = Machine::whole("whole");
    assert_eq!(
        ending(&machine.gate()),
        ("14 passed, 0 failed", 0, ""),
        "3 proved, 4 edits refused, 6 tested, README's command"
    );
    assert_eq!(machine.asked(), PARTS);
    fs::remove_file(machine.tool("nproc")).expect("it was there");
    assert_eq!(ending(&machine.gate()), ("14 passed, 0 failed", 0, ""), "nobody says how many processors");
    assert_eq!(machine.asked(), [PARTS, PARTS].concat());
}

#[test]
fn without_the_toolchain_one_line_says_what_is_needed() {
    let machine = Machine::without("no-rt", &["rt", "cargo"]);
    let message = ".ci/run: the Rattle toolchain is needed: its command 'rt' is not on the path\n";
    assert_eq!(ending(&machine.gate()), (NOT_BEGUN, 2, message));
    assert!(machine.asked().is_empty());
}

#[test]
fn root_gets_what_is_missing_installed_before_anything_is_proved() {
    let machine = Machine::without("root", &["cargo", "rustc", "cc", "c++"]);
    let message = format!("x86-cargo: installing {PACKAGES}\n");
    assert_eq!(ending(&machine.gate()), ("14 passed, 0 failed", 0, message.as_str()));
    let install = format!("apt-get install -y --no-install-recommends {PACKAGES}");
    assert_eq!(machine.asked()[..2], ["apt-get update", &install]);
    assert_eq!(machine.asked()[2..], PARTS);
}

/// A compiler without headers and a cargo without a toolchain are as good as none.
#[test]
fn each_tool_that_is_missing_or_does_not_run_is_installed() {
    for tool in ["cc", "c++", "cargo", "rustc"] {
        let missing = Machine::without("missing", &[tool]);
        let broken = Machine::whole("broken");
        broken.put(tool, "exit 1");
        for machine in [missing, broken] {
            assert_eq!(machine.run("host/x86-cargo", &["--version"]).out, "cargo 1\n", "{tool}");
            assert_eq!(machine.asked().len(), 2, "{tool}: update and install");
        }
    }
}

#[test]
fn to_build_a_program_takes_no_c_plus_plus() {
    let machine = Machine::without("build", &["c++"]);
    for (arguments, installs) in [(["build"], false), (["run"], false), (["test"], true)] {
        assert_eq!(machine.run("host/x86-cargo", &arguments).status, 0, "{arguments:?}");
        assert_eq!(!machine.asked().is_empty(), installs, "{arguments:?}");
    }
}

#[test]
fn others_are_told_the_packages() {
    let machine = Machine::without("other", &["cargo", "cc"]);
    machine.put("id", "echo 1000");
    let message = format!(
        "x86-cargo: cargo and compilers of C and C++ are needed; as root, on Debian: \
         apt-get update && apt-get install -y --no-install-recommends {PACKAGES}\n"
    );
    assert_eq!(ending(&machine.gate()), (NOT_BEGUN, 2, message.as_str()));
    assert!(machine.asked().is_empty());
}

#[test]
fn an_arm_machine_is_told_its_own_packages() {
    let machine = Machine::whole("arm");
    machine.put("uname", "echo aarch64");
    machine.put("id", "echo 1000");
    let run = machine.gate();
    assert_eq!((run.status, run.err.lines().count()), (2, 1), "{}", run.err);
    for words in ["dpkg --add-architecture amd64 && apt-get update", "libstd-rust-dev:amd64", "qemu-user"] {
        assert!(run.err.contains(words), "{}", run.err);
    }
}

#[test]
fn an_installation_that_fails_is_told_in_one_line() {
    let machine = Machine::without("apt-fails", &["cargo"]);
    machine.put("apt-get", "echo 'E: no network' >&2; exit 100");
    let needed = format!("apt-get update && apt-get install -y --no-install-recommends {PACKAGES}");
    let message = format!(
        "x86-cargo: installing {PACKAGES}\nE: no network\n\
         x86-cargo: apt-get failed (its words stand above); what is needed: {needed}\n"
    );
    assert_eq!(ending(&machine.gate()), (NOT_BEGUN, 2, message.as_str()));

    let machine = Machine::without("apt-does-nothing", &["cargo"]);
    machine.put("apt-get", "exit 0");
    let run = machine.gate();
    assert!(run.err.ends_with("but cargo and compilers of C and C++ still do not run\n"), "{}", run.err);
    assert_eq!(ending(&run).0, NOT_BEGUN);

    let machine = Machine::without("no-apt", &["cargo", "apt-get"]);
    let run = machine.gate();
    assert!(run.err.contains("there is no apt-get") && run.err.contains(PACKAGES), "{}", run.err);
    assert_eq!((ending(&run).0, run.status), (NOT_BEGUN, 2));
}

#[test]
fn the_last_line_counts_what_failed() {
    let failing = |name: &str, tool: &str, text: &str| {
        let machine = Machine::whole(name);
        machine.put(tool, text);
        let run = machine.gate();
        (String::from(ending(&run).0), run.status)
    };
    let count = |passed_failed: &str, status: i32| (String::from(passed_failed), status);
    let rt = |name: &str, then: &str| failing(name, "rt", then);
    let not_laid_out = "echo 'rt: it NOT PROVED'; echo 'rt: FAILED: it'; echo '0 passed, 1 failed'; exit 1";
    assert_eq!(rt("layout", not_laid_out), count("0 passed, 1 failed", 1));
    assert_eq!(rt("rt-1", "echo '2 passed, 1 failed'; exit 1"), count("2 passed, 1 failed", 1));
    assert_eq!(rt("rt-2", "echo 'rt: a bad crates.txt'; exit 2"), count("0 passed, 1 failed", 1));
    assert_eq!(rt("rt-3", "echo '2 passed, 0 failed'; exit 3"), count("2 passed, 1 failed", 1));
    for (bad, failed) in [("; all was done", 0), (", 2 bad; all was done", 2), (", 11 bad; 1 is kept", 11)] {
        let (passed, status) = if failed == 0 { (14, 0) } else { (3, 1) };
        let said = format!("[ \"$1\" = lib ] || printf '%s\\n' '{OK}{bad}' '3 passed, 0 failed'");
        assert_eq!(rt("bad", &said), count(&format!("{passed} passed, {failed} failed"), status), "{bad}");
    }
    assert_eq!(rt("library", "[ \"$1\" = ci ] && echo '2 passed, 0 failed'"), count("2 passed, 1 failed", 1));
    let one_fails = CARGO.replace("ok. 2 passed; 0 failed;", "FAILED. 1 passed; 1 failed;");
    assert_eq!(failing("tests", "cargo", &one_fails), count("10 passed, 3 failed", 1));
    let machine = Machine::whole("edits");
    put_script(&machine.beside("clone/.ci/edits"), "echo '3 passed, 1 failed'; exit 1");
    assert_eq!(ending(&machine.gate()), ("6 passed, 1 failed", 1, ""), "an edit that is not refused");
    let machine = Machine::whole("second-command");
    put_script(&machine.beside("clone/sheet"), "echo ACCEPT 2 1");
    assert_eq!(ending(&machine.gate()), ("13 passed, 1 failed", 1, ""));
}

const NO_PYTHON: &str = "The Python tests were left out: python3 is not on the path.";

/// A browser is nothing that the gate needs: where there is none, the test that asks for it is left out, and that
/// is said at the end.
#[test]
fn root_gets_a_browser_and_others_are_told_that_its_test_is_left_out() {
    let left_out = &format!(
        "run-tests: without a browser nobody looks at the pages: that test is left out\n{NO_PYTHON}\n6 passed, 0 failed\n"
    );
    let install = "apt-get install -y --no-install-recommends chromium";

    let machine = Machine::without("browser", &["chromium"]);
    let run = machine.run("host/run-tests", &[]);
    assert!(
        run.out.starts_with("run-tests: installing chromium\n") && !run.out.contains("that test is left out"),
        "{}",
        run.out
    );
    assert_eq!((machine.asked(), run.status), (vec![String::from("apt-get update"), install.into()], 0));

    let machine = Machine::without("no-browser", &["chromium"]);
    machine.put("id", "echo 1000");
    let run = machine.run("host/run-tests", &[]);
    let named = format!("run-tests: there is no browser; as root, on Debian: apt-get update && {install}\n");
    assert!(run.out.starts_with(&named) && run.out.ends_with(left_out), "{}", run.out);
    assert_eq!((machine.asked().len(), run.status), (0, 0));

    let machine = Machine::without("browser-fails", &["chromium"]);
    machine.put("apt-get", "echo 'E: no network' >&2; exit 100");
    let run = machine.run("host/run-tests", &[]);
    let failed = "E: no network\nrun-tests: chromium was not installed (apt-get's words stand above)\n";
    assert!(run.out.contains(failed) && run.out.ends_with(left_out), "{}", run.out);
    let machine = Machine::without("browser-no-apt", &["chromium", "apt-get"]);
    let run = machine.run("host/run-tests", &[]);
    assert!(run.out.contains("no apt-get to install it with (Debian: chromium)"), "{}", run.out);
    assert!(run.out.ends_with(left_out) && run.status == 0, "{}", run.out);
}

#[test]
fn root_gets_valgrind_and_what_is_left_out_without_it_is_said_at_the_end_once() {
    let install = "apt-get install -y --no-install-recommends valgrind";
    let machine = Machine::without("valgrind", &["valgrind"]);
    let run = machine.run("host/run-tests", &[]);
    assert!(run.out.starts_with("run-tests: installing valgrind\n"), "{}", run.out);
    assert_eq!((machine.asked(), run.status), (vec![String::from("apt-get update"), install.into()], 0));

    let machine = Machine::without("no-valgrind", &["valgrind"]);
    machine.put("id", "echo 1000");
    let missing = "left out, nothing was tried under valgrind: it is not there";
    machine.put("cargo", &CARGO.replace("*) echo", &format!("*) echo '{missing}'; echo '{missing}'; echo")));
    let run = machine.run("host/run-tests", &[]);
    let named = format!("run-tests: there is no valgrind; as root, on Debian: apt-get update && {install}\n");
    assert!(run.out.starts_with(&named), "{}", run.out);
    // Two of each of the three times that cargo runs tests, and the one of the end.
    assert_eq!(run.out.lines().filter(|line| *line == missing).count(), 7, "{}", run.out);
    let end: Vec<&str> = run.out.lines().rev().take(3).collect();
    assert!(end.contains(&missing) && end.contains(&NO_PYTHON), "{}", run.out);
    assert_eq!((end[0], run.status), ("6 passed, 0 failed", 0));
}

/// Without python3, as on the machines above, they are left out, and that is said.
#[test]
fn the_tests_of_python_are_counted_where_it_is_there() {
    let said = |machine: &Machine, words: &str| machine.gate().out.lines().any(|line| line.contains(words));
    assert!(said(&Machine::whole("no-python"), NO_PYTHON));
    let machine = Machine::whole("python");
    machine.put("python3", "echo 'test result: ok. 5 passed; 0 failed;'");
    assert!(said(&machine, "The Python tests were left out: there is no library for this machine itself"));
    fs::create_dir_all(machine.beside("clone/crates/usm_c/out")).expect("a folder");
    fs::write(machine.beside("clone/crates/usm_c/out/libusm_c.a"), "").expect("a library");
    assert_eq!(ending(&machine.gate()), ("19 passed, 0 failed", 0, ""));
    machine.put("python3", "echo 'test result: FAILED. 3 passed; 2 failed;'; exit 1");
    assert_eq!(ending(&machine.gate()), ("16 passed, 2 failed", 1, ""));
    machine.put("python3", "exit 1");
    assert_eq!(ending(&machine.gate()), ("13 passed, 1 failed", 1, ""), "tests that did not even start");
}
