//! `to-new` and `to-old`, and texts with an account.

use std::fs;

use crate::{folder, names_in, run, told, VERTICAL};

#[test]
fn a_text_with_an_account_makes_a_file_of_the_new_form() {
    let folder = folder("tool-account");
    let text = format!("account 4711\n{VERTICAL}");
    let file = run(&folder, &["make", "-", "-"], text.as_bytes()).stdout;
    assert_eq!((&file[..4], &file[496..498]), (&b"USM2"[..], &[0x67, 0x12][..]));
    assert_eq!(usm::file_line(&file), "ACCEPT 1 1000000\n");
    let (status, shown, _) = told(run(&folder, &["show", "-"], &file));
    assert_eq!((status, shown.lines().next()), (0, Some("account 4711")));
    assert_eq!(run(&folder, &["make", "-", "-"], shown.as_bytes()).stdout, file);
}

#[test]
fn a_file_is_moved_there_and_back() {
    let folder = folder("tool-moves");
    let old = run(&folder, &["make", "-", "-"], VERTICAL.as_bytes()).stdout;
    fs::write(folder.join("old.usm"), &old).expect("a file");
    let done = (0, String::new(), String::new());
    assert_eq!(told(run(&folder, &["to-new", "old.usm", "4711", "new.usm"], b"")), done);
    let new = run(&folder, &["make", "-", "-"], format!("account 4711\n{VERTICAL}").as_bytes()).stdout;
    assert_eq!(fs::read(folder.join("new.usm")).expect("moved"), new);
    assert_eq!(told(run(&folder, &["to-old", "new.usm", "back.usm"], b"")), done);
    assert_eq!(fs::read(folder.join("back.usm")).expect("moved back"), old);
    assert_eq!(run(&folder, &["to-old", "-", "-"], &new).stdout, old);
    // What is there stays, unless forced.
    let kept = "sheet: back.usm: is there already; --force overwrites it\n";
    assert_eq!(told(run(&folder, &["to-old", "new.usm", "back.usm"], b"")), (2, String::new(), kept.into()));
    assert_eq!(told(run(&folder, &["to-old", "new.usm", "back.usm", "--force"], b"")), done);
}

#[test]
fn an_account_is_moved_whole() {
    let folder = folder("tool-great-accounts");
    let old = run(&folder, &["make", "-", "-"], VERTICAL.as_bytes()).stdout;
    fs::write(folder.join("old.usm"), &old).expect("a file");
    for account in ["1", "4294967296", "4294972007", "9223372036854775808", "18446744073709551615"] {
        let moved = run(&folder, &["to-new", "old.usm", account, "-"], b"").stdout;
        let made =
            run(&folder, &["make", "-", "-"], format!("account {account}\n{VERTICAL}").as_bytes()).stdout;
        assert_eq!(moved, made, "{account}");
        let (status, shown, _) = told(run(&folder, &["show", "-"], &moved));
        assert_eq!((status, shown.lines().next()), (0, Some(format!("account {account}").as_str())));
    }
    for account in ["18446744073709551616", "+1", "1e3", "1,000"] {
        let number = format!("sheet: expected the number of an account, found `{account}`\n");
        let told = told(run(&folder, &["to-new", "old.usm", account, "out.usm"], b""));
        assert_eq!(told, (2, String::new(), number));
    }
}

#[test]
fn two_joined_accounts_are_told_as_two() {
    let folder = folder("tool-joined-accounts");
    let of = |account: &str| {
        run(&folder, &["make", "-", "-"], format!("account {account}\n{VERTICAL}").as_bytes()).stdout
    };
    let joined = [&of("7")[..512], &of("8")[512..]].concat();
    let message =
        "sheet: -: refusal 20: the 2nd of 3 blocks is of account 8, and the first block of account 7: \
                   two accounts are joined\n";
    for arguments in [&["to-new", "-", "9", "out.usm"][..], &["to-old", "-", "out.usm"]] {
        assert_eq!(told(run(&folder, arguments, &joined)), (2, String::new(), message.into()));
    }
}

#[test]
fn what_cannot_be_moved_writes_nothing() {
    let folder = folder("tool-unmoved");
    let old = run(&folder, &["make", "-", "-"], VERTICAL.as_bytes()).stdout;
    fs::write(folder.join("old.usm"), &old).expect("a file");
    let new = run(&folder, &["to-new", "old.usm", "4711", "-"], b"").stdout;
    fs::write(folder.join("new.usm"), &new).expect("a file");
    fs::write(folder.join("torn.usm"), &new[..700]).expect("a file");
    for (arguments, message) in [
        (&["to-new", "new.usm", "4711", "out"][..], "new.usm: refusal 3: the file is of the new form already, of account 4711"),
        (&["to-old", "old.usm", "out"], "old.usm: refusal 3: the file is of the old form already"),
        (&["to-new", "old.usm", "0", "out"], "old.usm: refusal 20: the account number to be written is 0; accounts are numbered from 1"),
        (&["to-new", "old.usm", "-1", "out"], "there is no option `-1`; usage: sheet to-new FILE ACCOUNT OUT [--force]"),
        (&["to-new", "old.usm", "mine", "out"], "expected the number of an account, found `mine`"),
        (&["to-old", "new.usm", "./new.usm"], "new.usm: cannot be written over itself; name another file for OUT"),
        (
            &["to-old", "torn.usm", "out"],
            "torn.usm: refusal 1: the file has 700 bytes, which is not whole blocks of 512 (1 block and 188 bytes); part of it may be lost",
        ),
    ] {
        assert_eq!(told(run(&folder, arguments, b"")), (2, String::new(), format!("sheet: {message}\n")));
    }
    assert_eq!(names_in(&folder), ["new.usm", "old.usm", "torn.usm"]);
}
