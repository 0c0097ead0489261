//! Files written whole or not at all.

use std::fs::{self, File, Metadata, OpenOptions};
use std::io::{self, Write};
use std::os::unix::fs::OpenOptionsExt;
use std::path::{Path, PathBuf};

use super::{not_empty, owner, shown};

/// Writes a file. One that is there already stays, unless forced; and where the writing fails it stays
/// too, for what is new is written beside it first.
pub fn write(path: &Path, bytes: &[u8], force: bool) -> Result<(), String> {
    not_empty(path)?;
    let written = match fs::metadata(path) {
        Ok(old) if !force && !old.is_dir() => Err(io::ErrorKind::AlreadyExists.into()),
        // A device or a pipe is written to and not replaced; a folder takes nothing, as the error says.
        Ok(old) if !old.is_file() => write_into(path, bytes),
        // A link stays, and what it leads to is replaced.
        Ok(old) => fs::canonicalize(path)
            .and_then(|path| beside(&path, bytes, Some(&old), |new| fs::rename(new, &path))),
        // Nothing there, or a link that leads nowhere.
        Err(_) if force => beside(path, bytes, None, |new| fs::rename(new, path)),
        Err(_) => beside(path, bytes, None, |new| put_in_place(new, path)),
    };
    written.map_err(|error| match error.kind() {
        io::ErrorKind::AlreadyExists => format!("{}: is there already; --force overwrites it", shown(path)),
        _ => format!("{}: cannot be written: {error}", shown(path)),
    })
}

fn write_into(path: &Path, bytes: &[u8]) -> io::Result<()> {
    OpenOptions::new().write(true).open(path)?.write_all(bytes)
}

/// Writes a file beside `path`, with owner and permissions of the `old` one if there is one, and hands it to `take`;
/// afterwards it is gone or at its place.
fn beside(
    path: &Path,
    bytes: &[u8],
    old: Option<&Metadata>,
    take: impl FnOnce(&Path) -> io::Result<()>,
) -> io::Result<()> {
    let (new, file) = new_file(path, old)?;
    let taken = fill(file, bytes, old).and_then(|()| take(&new));
    let _ = fs::remove_file(&new); // a file that was renamed is not there any more
    taken
}

/// The owner comes before the permissions, which a new owner may lessen, and these before the bytes.
fn fill(mut file: File, bytes: &[u8], old: Option<&Metadata>) -> io::Result<()> {
    if let Some(old) = old {
        owner::keep(&file, old)?;
        file.set_permissions(old.permissions())?;
    }
    file.write_all(bytes)?;
    file.sync_all()
}

/// A file of its own in the folder of `path`. One that is to replace another is nobody else's at first.
fn new_file(path: &Path, old: Option<&Metadata>) -> io::Result<(PathBuf, File)> {
    let folder = match path.parent() {
        Some(folder) if folder != Path::new("") => folder,
        _ => Path::new("."),
    };
    let mode = if old.is_some() { 0o600 } else { 0o666 };
    let mut try_number = 0;
    loop {
        let new = folder.join(format!(".sheet-{}-{try_number}.tmp", std::process::id()));
        match OpenOptions::new().write(true).create_new(true).mode(mode).open(&new) {
            Ok(file) => return Ok((new, file)),
            Err(error) if error.kind() == io::ErrorKind::AlreadyExists && try_number < 100 => try_number += 1,
            Err(error) => return Err(error),
        }
    }
}

/// Gives a new file its name unless something has that name by now. Where the file system has no links
/// only the look before tells.
fn put_in_place(new: &Path, path: &Path) -> io::Result<()> {
    match fs::hard_link(new, path) {
        Err(error) if error.kind() != io::ErrorKind::AlreadyExists && fs::symlink_metadata(path).is_err() => {
            fs::rename(new, path)
        }
        linked => linked,
    }
}

#[cfg(test)]
mod tests {
    use super::*;
    use std::os::unix::fs::PermissionsExt;

    fn mode(file: &Metadata) -> u32 {
        file.permissions().mode() & 0o777
    }

    /// From its first moment on, before anything stands in it.
    #[test]
    fn what_replaces_a_file_is_closed_to_others() {
        let folder = std::env::temp_dir().join(format!("usm-write-{}", std::process::id()));
        fs::create_dir_all(&folder).expect("a folder");
        let path = folder.join("mine");
        fs::write(&path, "old").expect("a file");
        fs::set_permissions(&path, fs::Permissions::from_mode(0o640)).expect("permissions");
        let old = fs::metadata(&path).expect("a file");
        let (_, new) = new_file(&path, Some(&old)).expect("a file beside it");
        assert_eq!(mode(&new.metadata().expect("a file")), 0o600);
        fill(new, b"new", Some(&old)).expect("written");
        let taken = beside(&path, b"new", Some(&old), |new| {
            assert_eq!(mode(&fs::metadata(new)?), 0o640);
            fs::rename(new, &path)
        });
        taken.expect("at its place");
        assert_eq!(fs::read(&path).expect("a file"), b"new");
        fs::remove_dir_all(&folder).expect("a folder of this test");
    }
}
