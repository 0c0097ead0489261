//! `mark-paid`: sheets from before the paid mark.

use std::fs;

use usm::Sheet;
use usm_kit::accounts::{in_group, leg, paid, placed};

use crate::{folder, names_in, run, told};

/// A long in no group, marked or not, in a file of this account.
fn file(account: u64, marked: bool) -> Vec<u8> {
    let long = if marked { paid(leg("L50p")) } else { in_group(0, leg("L50p")) };
    let holdings = vec![in_group(0, leg("L50p"))];
    Sheet { account, holdings, ..placed(&[long], &[]) }.to_file().expect("a file")
}

#[test]
fn an_old_sheet_is_accepted_after_the_pass() {
    let folder = folder("tool-paid");
    for account in [0, 4711] {
        let old = file(account, false);
        assert_eq!(told(run(&folder, &["check", "-"], &old)).1, "REFUSE 15 2 0\n");
        let marked = run(&folder, &["mark-paid", "-", "-"], &old);
        assert_eq!(marked.stdout, file(account, true), "form and account stay");
        assert_eq!(String::from_utf8_lossy(&marked.stderr), "-: 1 unplaced long marked as paid\n");
        assert_eq!(told(run(&folder, &["check", "-"], &marked.stdout)).1, "ACCEPT 0 0\n");
        let again = run(&folder, &["mark-paid", "-", "-"], &marked.stdout);
        assert_eq!(again.stdout, marked.stdout);
        assert_eq!(String::from_utf8_lossy(&again.stderr), "-: 0 unplaced longs marked as paid\n");
    }
}

#[test]
fn what_is_there_stays_and_what_is_no_sheet_is_told() {
    let folder = folder("tool-paid-kept");
    fs::write(folder.join("old.usm"), file(0, false)).expect("a file");
    fs::write(folder.join("out.usm"), "mine").expect("a file");
    let kept = "sheet: out.usm: is there already; --force overwrites it\n";
    assert_eq!(
        told(run(&folder, &["mark-paid", "old.usm", "out.usm"], b"")),
        (2, String::new(), kept.into())
    );
    let same = "sheet: old.usm: cannot be written over itself; name another file for OUT\n";
    assert_eq!(
        told(run(&folder, &["mark-paid", "old.usm", "old.usm"], b"")),
        (2, String::new(), same.into())
    );
    let (status, _, message) = told(run(&folder, &["mark-paid", "-", "new.usm"], b"holdings\n"));
    assert_eq!(status, 2);
    assert!(message.starts_with("sheet: -: refusal 1: this is the text of a sheet"), "{message}");
    assert_eq!(told(run(&folder, &["mark-paid", "old.usm", "out.usm", "--force"], b"")).0, 0);
    assert_eq!(fs::read(folder.join("out.usm")).expect("marked"), file(0, true));
    assert_eq!(names_in(&folder), ["old.usm", "out.usm"]);
}
