//! How library and tool are made: the first run, two at once, and what was changed.

use std::fs;
use std::os::unix::fs::symlink;
use std::process::{Child, Stdio};

use crate::door::{Door, OTHERS, SOURCES};
use crate::scripts::told;

#[test]
fn the_first_run_says_what_it_does_and_the_second_nothing() {
    let door = Door::fresh("first");
    let first = door.run(&["check"]);
    let proof = door.clone("target/sheet/proof");
    let crates = ["records", "spreads", "usm_c"].map(|name| format!("sheet: {name} proved\n")).concat();
    let said = format!(
        "sheet: proving and building the library from {}\n\
         sheet: from nothing this takes some five minutes on two cores; the prover's talk goes to {}\n\
         {crates}sheet: building the tool; this takes some ten seconds\n",
        door.clone("crates").display(),
        proof.display()
    );
    assert_eq!((first.status, first.out.as_str(), first.err), (0, "<check>", said));
    let talk = fs::read_to_string(proof).expect("the prover's talk");
    assert!(talk.contains("fn records::first: proved"), "{talk}");
    assert_eq!(door.called(), ["rt", "cargo"], "in the clone, and of its own library");
    let second = door.run(&["check"]);
    assert_eq!((second.status, second.out.as_str(), second.err.as_str()), (0, "<check>", ""));
    assert!(door.calls().is_empty());
}

#[test]
fn two_first_runs_at_once_do_not_disturb_each_other() {
    let door = Door::fresh("two");
    door.put_rt("sleep 0.5");
    let start = || -> Child {
        let mut command = door.sheet();
        command.arg("check").stdout(Stdio::piped()).stderr(Stdio::piped()).spawn().expect("sheet runs")
    };
    let runs = [start(), start()].map(|child| told(child.wait_with_output().expect("sheet ends")));
    for run in &runs {
        assert_eq!((run.status, run.out.as_str()), (0, "<check>"), "{}", run.err);
    }
    assert_eq!(door.called(), ["rt", "cargo"], "the second finds what the first made");
    let waited = runs.iter().filter(|run| run.err.contains("another run is making the tool; waiting for it"));
    assert_eq!(waited.count(), 1);
}

/// What is changed, and who is asked because of it.
#[test]
fn what_changed_is_made_again_and_nothing_else() {
    let door = Door::made("changed");
    let expect = |what: &str, called: &[&str]| {
        let run = door.run(&["check"]);
        assert_eq!((run.status, run.out.as_str()), (0, "<check>"), "{what}: {}", run.err);
        assert_eq!(door.called(), called, "{what}");
        assert_eq!(run.err.is_empty(), called.is_empty(), "{what}: {}", run.err);
        door.age();
    };
    door.called();
    expect("nothing", &[]);
    door.put("crates/records/src/lib.rt", "// other records\n");
    expect("a source of the library", &["rt", "cargo"]);
    door.put("crates/verdicts/src/more.rt", "// more\n");
    expect("a new file", &["rt", "cargo"]);
    door.remove("crates/verdicts/src/more.rt");
    expect("a file that is gone", &["rt", "cargo"]);
    fs::rename(door.clone("crates/usm_c/src/lib.rt"), door.clone("crates/usm_c/src/other.rt"))
        .expect("moved");
    expect("a file of another name", &["rt", "cargo"]);
    door.put("crates.txt", "records:\nusm_c staticlib: records\n");
    expect("the list of crates", &["rt", "cargo"]);
    door.put("crates/blocks/src/lib.rt", "// other blocks\n");
    door.put("crates/usm_check/src/lib.rt", "// another program\n");
    door.put("crates/records/must-fail/wrong.edit", "another edit\n");
    door.put("crates/records/out/kept", "other work\n");
    expect("what the library is not made of", &[]);
    for source in SOURCES {
        door.put(source, "// another source\n");
        expect(source, &["cargo"]);
    }
    OTHERS.into_iter().for_each(|source| door.put(source, "// another source\n"));
    expect("model, kit and tests", &[]);
    door.put("crates/usm_c/out/libusm_c.a", "another library\n");
    expect("the library", &["cargo"]);
    door.remove("crates/usm_c/out/libusm_c.a");
    expect("a library that is gone", &["rt", "cargo"]);
    door.remove("host/target/release/usm_sheet");
    expect("a tool that is gone", &["cargo"]);
}

#[test]
fn a_tool_that_cargo_leaves_as_it_is_is_not_asked_for_again() {
    let door = Door::made("left");
    door.put("host/src/lib.rs", "// as it was\n");
    door.called();
    door.put_cargo("touch -d '5 minutes ago' target/release/usm_sheet");
    for called in [&["cargo"][..], &[]] {
        assert_eq!(door.run(&["check"]).out, "<check>");
        assert_eq!(door.called(), called);
    }
}

#[test]
fn words_and_input_reach_the_tool_as_they_are() {
    let door = Door::fresh("words");
    let words = ["check", "a b", "", "*", "-", "$HOME", "--", "x\ny"];
    let all = words.map(|word| format!("<{word}>")).concat();
    for made in ["now", "before"] {
        let run = door.shell("printf 'what is sent' | \"$0\" check 'a b' '' '*' - '$HOME' -- $'x\\ny'");
        assert_eq!((run.status, run.out), (0, format!("{all}what is sent")), "made {made}");
    }
}

#[test]
fn it_finds_the_clone_through_links() {
    let door = Door::made("links");
    door.called();
    symlink(door.clone("sheet"), door.file("first")).expect("a link");
    symlink("first", door.file("second")).expect("a link");
    for link in ["first", "second"] {
        let run = told(door.command(&door.file(link)).arg("check").output().expect("sheet runs"));
        assert_eq!((run.out.as_str(), run.err.as_str()), ("<check>", ""), "{link}");
    }
    // By its name alone, from the path.
    symlink(door.clone("sheet"), door.tool("sheets")).expect("a link");
    assert_eq!(door.shell("sheets check").out, "<check>");
    assert!(door.calls().is_empty(), "the tool that is made already");
}
