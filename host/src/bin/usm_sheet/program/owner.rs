//! Whose a file is. Rust's own library has the call since 1.73, and this package is older.

#![allow(unsafe_code)]

use std::fs::{File, Metadata};
use std::io;
use std::os::raw::c_int;
use std::os::unix::fs::MetadataExt;
use std::os::unix::io::AsRawFd;

extern "C" {
    fn fchown(file: c_int, owner: u32, group: u32) -> c_int;
}

/// Gives a file the owner and the group of another, unless it has them already.
pub fn keep(file: &File, old: &Metadata) -> io::Result<()> {
    let new = file.metadata()?;
    if (new.uid(), new.gid()) == (old.uid(), old.gid()) {
        return Ok(());
    }
    // SAFETY: the file is open as long as it is lent, and the call is handed numbers alone.
    match unsafe { fchown(file.as_raw_fd(), old.uid(), old.gid()) } {
        0 => Ok(()),
        _ => Err(io::Error::new(
            io::ErrorKind::PermissionDenied,
            "it belongs to another user or group and would not any more; remove it first, or name another file",
        )),
    }
}
