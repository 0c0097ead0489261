//! Files that are no sheet files, of whatever size: what they look like, and what to do with them.

use crate::text::is_section;
use usm_values::block::BLOCK_BYTES;
use usm_values::Form;

/// What files of other kinds begin with, what they are, and what may help.
const KINDS: [(&[u8], &str); 12] = [
    (b"%PDF-", "a PDF document"),
    (b"\x1f\x8b", "a file packed by gzip, which has to be unpacked first (`gunzip`)"),
    (b"BZh", "a file packed by bzip2, which has to be unpacked first (`bunzip2`)"),
    (b"\xfd7zXZ\0", "a file packed by xz, which has to be unpacked first (`unxz`)"),
    (b"\x28\xb5\x2f\xfd", "a file packed by zstd, which has to be unpacked first (`unzstd`)"),
    (b"PK\x03\x04", "a zip archive, or a spreadsheet (.xlsx, .ods), which can be saved as CSV"),
    (b"\xd0\xcf\x11\xe0", "an older office document (.xls, .doc); a spreadsheet can be saved as CSV"),
    (b"\x89PNG", "a picture"),
    (b"\xff\xd8\xff", "a picture"),
    (b"\x7fELF", "a program"),
    (b"\xff\xfe", "text in UTF-16, which has to be saved as UTF-8"),
    (b"\xfe\xff", "text in UTF-16, which has to be saved as UTF-8"),
];

/// What a file of another kind is by its first bytes, and what may help: a PDF, something packed, an office document.
///
/// ```
/// use usm::sentences::other_kind;
/// assert_eq!(other_kind(b"%PDF-1.4\n"), Some("a PDF document"));
/// assert_eq!(other_kind(b"holdings\n"), None);
/// ```
pub fn other_kind(file: &[u8]) -> Option<&'static str> {
    KINDS.iter().find(|(start, _)| file.starts_with(start)).map(|(_, kind)| *kind)
}

/// Why a file is none of ours: no block of it begins with a mark. An empty one may be what is left of a sheet file.
pub fn sentence(file: &[u8]) -> Option<String> {
    let marked = file.chunks(BLOCK_BYTES).any(|block| Form::of_block(block).is_some());
    if file.is_empty() || marked {
        return None;
    }
    let looks = match (other_kind(file), of_text(file)) {
        (Some(kind), _) => format!("it looks like {kind}"),
        (None, Some(text)) => return Some(text),
        (None, None) if file.iter().all(|byte| *byte == 0) => String::from("it has nothing but zero bytes"),
        (None, None) => String::from("what it is instead cannot be told"),
    };
    Some(format!("this is no sheet file, which begins with the mark `USM1` or `USM2`; {looks}"))
}

/// For a text that was taken for a sheet file, what to do with it.
fn of_text(file: &[u8]) -> Option<String> {
    let text = as_text(file)?;
    let names_a_section = text.lines().any(|line| line.split_whitespace().next().map_or(false, is_section));
    Some(String::from(if names_a_section {
        "this is the text of a sheet and not yet a sheet file: first make one of it, `sheet make TEXT OUT`"
    } else {
        "this is text and no sheet file; `sheet help` tells how a sheet is written as text, \
         and `sheet make TEXT OUT` makes a file of it"
    }))
}

/// The file as text, if it is some: UTF-8 without control characters. The last character may be cut off,
/// since no more than a sheet file's length is read.
fn as_text(file: &[u8]) -> Option<&str> {
    let text = match std::str::from_utf8(file) {
        Ok(text) => text,
        Err(error) if error.error_len().is_none() => {
            std::str::from_utf8(&file[..error.valid_up_to()]).ok()?
        }
        Err(_) => return None,
    };
    let plain = |c: char| !c.is_control() || c.is_ascii_whitespace();
    text.chars().all(plain).then_some(text)
}
