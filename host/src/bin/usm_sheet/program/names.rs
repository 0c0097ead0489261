//! File names in messages.

use std::ffi::OsStr;
use std::os::unix::ffi::OsStrExt;

use usm::text::escaped_bytes;

/// A file name as it can be printed: what does not show is escaped, and so are bytes that are no UTF-8.
pub fn shown(name: impl AsRef<OsStr>) -> String {
    escaped_bytes(name.as_ref().as_bytes())
}

/// Refuses the empty name, which a variable that is not set leaves behind.
pub fn not_empty(name: impl AsRef<OsStr>) -> Result<(), String> {
    match name.as_ref().is_empty() {
        true => Err(String::from("the name of a file is empty; a variable may not be set")),
        false => Ok(()),
    }
}

#[cfg(test)]
mod tests {
    use super::*;

    #[test]
    fn every_name_can_be_printed() {
        for (name, printed) in [
            (&b"mine.usm"[..], "mine.usm"),
            ("é 'x'.usm".as_bytes(), "é 'x'.usm"),
            (b"a\nb\x1b[2J", "a\\nb\\u{1b}[2J"),
            (b"\xff\xc3(\xe2\x82", "\\xff\\xc3(\\xe2\\x82"),
            (b"", ""),
        ] {
            assert_eq!(shown(OsStr::from_bytes(name)), printed);
        }
    }
}
