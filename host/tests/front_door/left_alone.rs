//! Where library or tool cannot be made: the tool that stands there is started, or one line says what is needed.

use crate::door::{said, Door};
use crate::scripts::{put_script, set_mode};

const NO_RT: &str = "making it takes the Rattle toolchain: 'rt' is not on the path";
const NO_CARGO: &str = "making it takes Rust: 'cargo' is not on the path";
const AS_IT_STANDS: &str = "; the tool is started as it stands";

fn without(door: &Door, tool: &str) {
    std::fs::remove_file(door.tool(tool)).expect("it was there");
}

#[test]
fn without_the_toolchain_the_tool_runs_as_it_stands() {
    let fresh = Door::fresh("no-rt");
    without(&fresh, "rt");
    let message = format!("sheet: the library is not made yet, and {NO_RT}\n");
    assert_eq!(fresh.run(&["check"]), said(2, "", &message));
    assert!(!fresh.clone("target").exists() && !fresh.clone("host/target").exists(), "nothing is begun");

    let door = Door::made("no-rt-made");
    without(&door, "rt");
    assert_eq!(door.run(&["check"]), said(0, "<check>", ""), "once all is made it is not needed");
    door.put("crates/records/src/lib.rt", "// newer\n");
    let message = format!("sheet: the library is older than its sources, and {NO_RT}{AS_IT_STANDS}\n");
    assert_eq!(door.run(&["check"]), said(0, "<check>", &message));
    door.remove("crates/usm_c/out/libusm_c.a");
    let message = format!("sheet: the library is not made yet, and {NO_RT}{AS_IT_STANDS}\n");
    assert_eq!(door.run(&["check"]), said(0, "<check>", &message));
}

#[test]
fn without_cargo_the_tool_runs_as_it_stands() {
    let door = Door::made("no-cargo");
    door.called();
    without(&door, "cargo");
    assert_eq!(door.run(&["check"]), said(0, "<check>", ""));
    door.put("host/src/lib.rs", "// newer\n");
    let message = format!("sheet: the tool is older than its sources, and {NO_CARGO}{AS_IT_STANDS}\n");
    assert_eq!(door.run(&["check"]), said(0, "<check>", &message));
    assert!(door.calls().is_empty(), "nothing is installed for a tool that is there");
}

/// With status 2 x86-cargo says that there is nothing to build with.
#[test]
fn what_x86_cargo_misses_is_said() {
    let door = Door::made("no-linker");
    put_script(&door.clone("host/x86-cargo"), "echo x86-cargo: a compiler is needed >&2; exit 2");
    door.put("host/src/lib.rs", "// newer\n");
    let begun = "sheet: building the tool; this takes some ten seconds\nx86-cargo: a compiler is needed\n";
    let nothing = "and there is nothing to build it with";
    let message = format!("{begun}sheet: the tool is older than its sources, {nothing}{AS_IT_STANDS}\n");
    assert_eq!(door.run(&["check"]), said(0, "<check>", &message));
    door.remove("host/target/release/usm_sheet");
    let message = format!("{begun}sheet: the tool is not made yet, {nothing}\n");
    assert_eq!(door.run(&["check"]), said(2, "", &message));
}

#[test]
fn what_is_refused_is_not_replaced_by_something_older() {
    let door = Door::made("refused");
    door.put("crates/records/src/lib.rt", "// wrong\n");
    put_script(&door.tool("rt"), "echo rt: records NOT PROVED; exit 1");
    let proof = door.clone("target/sheet/proof");
    let ending = format!(
        "sheet: records NOT PROVED\nsheet: the library could not be made (status 1 of rt); {} says why\n",
        proof.display()
    );
    for turn in 0..2 {
        let run = door.run(&["check"]);
        assert_eq!((run.status, run.out.as_str()), (2, ""), "turn {turn}");
        assert!(run.err.ends_with(&ending), "{}", run.err);
    }
    door.put_rt("exit 0");
    assert_eq!(door.run(&["check"]).out, "<check>");

    put_script(&door.clone("host/x86-cargo"), "echo an error in line 1 >&2; exit 101");
    door.age();
    door.put("host/src/lib.rs", "// wrong\n");
    let message = "sheet: building the tool; this takes some ten seconds\n\
                   an error in line 1\nsheet: the tool could not be built\n";
    assert_eq!(door.run(&["check"]), said(2, "", message));
}

#[test]
fn a_toolchain_or_a_cargo_that_made_nothing_is_noticed() {
    let door = Door::fresh("nothing-made");
    door.put_rt("rm out/libusm_c.a");
    let run = door.run(&["check"]);
    assert_eq!((run.status, run.out.as_str()), (2, ""));
    assert!(run.err.contains("the library could not be made (status 0 of rt)"), "{}", run.err);
    door.put_rt("exit 0");
    door.put_cargo("rm target/release/usm_sheet");
    let run = door.run(&["check"]);
    assert_eq!((run.status, run.out.as_str()), (2, ""));
    assert!(run.err.ends_with("sheet: the tool could not be built\n"), "{}", run.err);
}

#[test]
fn a_clone_that_cannot_be_written_is_said_in_one_line() {
    let shut = |door: &Door| {
        for folder in ["target/sheet", "target", "crates/usm_c", "host/target", "host", ""] {
            if door.clone(folder).is_dir() {
                set_mode(&door.clone(folder), 0o555);
            }
        }
    };
    let cannot = |door: &Door| {
        format!("and {} cannot be written: make it once where it can", door.beside("clone").display())
    };
    let fresh = Door::fresh("shut");
    shut(&fresh);
    let message = format!("sheet: the library is not made yet, {}\n", cannot(&fresh));
    assert_eq!(fresh.as_anyone(&["check"]), said(2, "", &message));
    assert!(fresh.calls().is_empty());

    let door = Door::made("shut-made");
    shut(&door);
    assert_eq!(door.as_anyone(&["check"]), said(0, "<check>", ""));
    for (source, what) in [("host/src/lib.rs", "tool"), ("crates/records/src/lib.rt", "library")] {
        door.put(source, "// newer\n");
        let older = format!("sheet: the {what} is older than its sources, ");
        let message = format!("{older}{}{AS_IT_STANDS}\n", cannot(&door));
        assert_eq!(door.as_anyone(&["check"]), said(0, "<check>", &message));
    }
}
