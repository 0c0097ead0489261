//! Which files a check is about: names, lists of names, and folders.

use std::ffi::{OsStr, OsString};
use std::fs;
use std::io;
use std::os::unix::ffi::OsStrExt;
use std::path::{Path, PathBuf};

use usm::Form;

use crate::input::{is_sheet_file, read_into};
use crate::program::shown;

/// Longer lists are none: a path has at most 4,096 bytes, and so there is room for 16,384 of the longest.
const LONGEST_NAMES: usize = 1 << 26;

/// A file to be looked at, or a name that stands for none and why.
pub enum Asked {
    File(OsString),
    Nothing(OsString, String),
}

/// All files that the names stand for, in order: those of the lists behind the others. Standard input is one of
/// them, or one of the lists, and not twice.
pub fn asked(names: &[OsString], lists: &[OsString]) -> Result<Vec<Asked>, String> {
    let mut asked: Vec<Asked> = names.iter().flat_map(|name| in_folder(name)).collect();
    for list in lists {
        let listed = names_in(list)?;
        if listed.is_empty() {
            return Err(format!("{}: names no file", shown(list)));
        }
        asked.extend(listed.iter().flat_map(|name| in_folder(name)));
    }
    let mut is_read = lists.iter().any(|list| list == "-");
    for file in asked.iter_mut().filter(|file| matches!(file, Asked::File(name) if name == "-")) {
        if is_read {
            *file = nothing("-".as_ref(), "standard input can be read only once");
        }
        is_read = true;
    }
    Ok(asked)
}

/// Whether a name is to stand before each line: there are several files, or may be.
pub fn are_named(names: &[OsString], lists: &[OsString]) -> bool {
    names.len() != 1 || !lists.is_empty() || Path::new(&names[0]).is_dir()
}

/// The names in a list, one a line, or with a zero byte behind each, as `find -print0` writes them.
fn names_in(list: &OsStr) -> Result<Vec<OsString>, String> {
    let mut bytes = Vec::new();
    read_into(&mut bytes, list, LONGEST_NAMES)?;
    if bytes.len() > LONGEST_NAMES {
        return Err(format!("{}: has more than {LONGEST_NAMES} bytes and is no list of names", shown(list)));
    }
    if is_sheet(&bytes) {
        return Err(format!("{}: is a sheet file, and no list of names", shown(list)));
    }
    let name = |bytes: &[u8]| OsStr::from_bytes(bytes).to_os_string();
    let names: Vec<OsString> = if bytes.contains(&0) {
        bytes.split(|byte| *byte == 0).map(name).collect()
    } else {
        bytes
            .split(|byte| *byte == b'\n')
            .map(|line| name(line.strip_suffix(b"\r").unwrap_or(line)))
            .collect()
    };
    Ok(names.into_iter().filter(|name| !name.is_empty()).collect())
}

/// Whether a sheet file begins so. A name may begin with the mark, too; behind it a block has the number of its table.
fn is_sheet(bytes: &[u8]) -> bool {
    Form::of_block(bytes).is_some() && matches!(bytes.get(Form::Old.mark().len()), Some(1..=3))
}

/// The file of this name, or where it is a folder, the sheet files in it.
fn in_folder(name: &OsStr) -> Vec<Asked> {
    if name == "-" || !Path::new(name).is_dir() {
        return vec![Asked::File(name.to_os_string())];
    }
    let mut asked = Vec::new();
    sheet_files(Path::new(name), &mut asked);
    match asked.is_empty() {
        true => vec![nothing(name, "is a folder without a file whose name ends in .usm")],
        false => asked,
    }
}

fn nothing(name: &OsStr, why: &str) -> Asked {
    Asked::Nothing(name.to_os_string(), format!("{}: {why}", shown(name)))
}

/// The files ending in .usm of a folder and of those inside it, by name. Links to folders are not followed, so that
/// there is an end; a folder that cannot be read keeps no other from it.
fn sheet_files(folder: &Path, asked: &mut Vec<Asked>) {
    let entries = match entries_of(folder) {
        Ok(entries) => entries,
        Err(error) => return asked.push(nothing(folder.as_os_str(), &format!("cannot be read: {error}"))),
    };
    for (path, is_folder) in entries {
        if is_folder {
            sheet_files(&path, asked);
        } else if is_sheet_file(path.as_os_str()) {
            asked.push(regular_file(path));
        }
    }
}

/// A file that was found in a folder. Nobody named it, so a pipe is not waited for.
fn regular_file(path: PathBuf) -> Asked {
    match fs::metadata(&path) {
        Ok(about) if !about.is_file() => nothing(path.as_os_str(), "is no regular file"),
        _ => Asked::File(path.into_os_string()),
    }
}

/// What stands in a folder, by name, and whether each is a folder itself.
fn entries_of(folder: &Path) -> io::Result<Vec<(PathBuf, bool)>> {
    let entries = fs::read_dir(folder)?.map(|entry| {
        let entry = entry?;
        Ok((entry.path(), entry.file_type()?.is_dir()))
    });
    let mut entries = entries.collect::<io::Result<Vec<(PathBuf, bool)>>>()?;
    entries.sort();
    Ok(entries)
}
