//! What `--force` writes over, and what it keeps: links, permissions and owners.

use std::fs;
use std::os::unix::fs::{symlink, MetadataExt, PermissionsExt};
use std::path::Path;
use std::process::Command;

use crate::scripts::{is_root, set_mode, Folder};
use crate::{answer, common, folder, names_in, run, told, VERTICAL};

fn mode(path: &Path) -> u32 {
    fs::metadata(path).expect("a file").permissions().mode() & 0o7777
}

#[test]
fn a_link_that_leads_nowhere_stays_unless_forced() {
    let folder = folder("tool-dangling");
    symlink("nowhere.usm", folder.join("out.usm")).expect("a link");
    let kept = "sheet: out.usm: is there already; --force overwrites it\n";
    let made = told(run(&folder, &["make", "-", "out.usm"], VERTICAL.as_bytes()));
    assert_eq!(made, (2, String::new(), kept.into()));
    assert_eq!(fs::read_link(folder.join("out.usm")).expect("a link"), Path::new("nowhere.usm"));
    assert_eq!(names_in(&folder), ["out.usm"]);
    assert_eq!(told(run(&folder, &["make", "-", "out.usm", "--force"], VERTICAL.as_bytes())).0, 0);
    assert_eq!(fs::read(folder.join("out.usm")).expect("made").len(), 3 * 512);
}

#[test]
fn permissions_stay() {
    let folder = folder("tool-modes");
    for kept in [0o600, 0o640, 0o666, 0o444, 0o755] {
        let path = folder.join("out.usm");
        let _ = fs::remove_file(&path); // there is none at first
        fs::write(&path, "mine").expect("a file");
        set_mode(&path, kept);
        assert_eq!(told(run(&folder, &["make", "-", "out.usm", "--force"], VERTICAL.as_bytes())).0, 0);
        assert_eq!((mode(&path), fs::read(&path).expect("made").len()), (kept, 3 * 512), "{kept:o}");
    }
    symlink("out.usm", folder.join("link.usm")).expect("a link");
    set_mode(&folder.join("out.usm"), 0o600);
    assert_eq!(told(run(&folder, &["make", "-", "link.usm", "--force"], VERTICAL.as_bytes())).0, 0);
    assert_eq!(mode(&folder.join("out.usm")), 0o600);
}

fn give(path: &Path, owner: u32, group: u32) {
    let given = Command::new("chown").arg(format!("{owner}:{group}")).arg(path).status().expect("chown runs");
    assert!(given.success());
}

/// Only root can give files away: without it a file can have no other owner than the one who runs this.
#[test]
fn the_owner_stays_or_nothing_is_written() {
    let folder = Folder::new("owner");
    let path = folder.0.join("out.usm");
    fs::write(&path, "mine").expect("a file");
    let before = fs::metadata(&path).expect("a file");
    let (owner, group) = if is_root() { (54_321, 12_345) } else { (before.uid(), before.gid()) };
    give(&path, owner, group);
    set_mode(&path, 0o600);
    assert_eq!(told(run(&folder.0, &["make", "-", "out.usm", "--force"], VERTICAL.as_bytes())).0, 0);
    let after = fs::metadata(&path).expect("made");
    assert_eq!((after.uid(), after.gid(), mode(&path), after.len()), (owner, group, 0o600, 3 * 512));
    if !is_root() {
        return;
    }
    // Another user cannot keep the owner, and so leaves the file alone.
    set_mode(&folder.0, 0o777);
    let tool = folder.0.join("usm_sheet");
    fs::copy(env!("CARGO_BIN_EXE_usm_sheet"), &tool).expect("a tool that all may run");
    set_mode(&tool, 0o755);
    let mut other = Command::new("setpriv");
    other.args(["--reuid=65534", "--regid=65534", "--clear-groups"]);
    let tool = common::program(&tool);
    other.arg(tool.get_program()).args(tool.get_args());
    other.args(["make", "-", "out.usm", "--force"]).current_dir(&folder.0);
    let (status, _, message) = told(answer(other, VERTICAL.as_bytes()));
    let said =
        "sheet: out.usm: cannot be written: it belongs to another user or group and would not any more; \
                remove it first, or name another file\n";
    assert_eq!((status, message.as_str()), (2, said));
    assert_eq!(fs::metadata(&path).expect("kept").ino(), after.ino());
    assert_eq!(names_in(&folder.0), ["out.usm", "usm_sheet"]);
}
