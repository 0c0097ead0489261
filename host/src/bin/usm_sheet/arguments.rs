//! The words of the command line. File names need not be UTF-8.

use std::ffi::{OsStr, OsString};
use std::os::unix::ffi::OsStrExt;

use usm::text::digits;

use crate::program::shown;

/// Every option that is a word by itself; which of them a command takes, its usage tells.
const OPTIONS: [&str; 6] = ["--force", "--holdings", "--json", "--quiet", "--table", "--work"];

/// The option that the name of a list stands behind, or is joined to by `=`.
const FILES_FROM: &str = "--files-from";

#[derive(Default)]
pub struct Arguments {
    pub command: String,
    /// The words behind the command that are no options.
    pub files: Vec<OsString>,
    /// The options that were given.
    pub options: Vec<&'static str>,
    /// The lists of names that were given.
    pub lists: Vec<OsString>,
    /// The first thing that is wrong with the options.
    pub wrong: Option<String>,
    pub help: bool,
    pub version: bool,
}

impl Arguments {
    /// Parts options from names. Behind `--` every word is a name.
    pub fn of(words: Vec<OsString>) -> Arguments {
        let mut arguments = Arguments::default();
        let mut names = Vec::new();
        let mut words = words.into_iter();
        while let Some(word) = words.next() {
            match word.to_str() {
                Some("--") => names.extend(words.by_ref()),
                Some("-h" | "--help") => arguments.help = true,
                Some("-V" | "--version") => arguments.version = true,
                Some(FILES_FROM) => arguments.list(words.next()),
                _ if joined(&word).is_some() => arguments.list(joined(&word)),
                Some(option) if option.len() > 1 && option.starts_with('-') => arguments.option(option),
                _ => names.push(word),
            }
        }
        let mut names = names.into_iter();
        arguments.command = names.next().map(|word| word.to_string_lossy().into_owned()).unwrap_or_default();
        arguments.files = names.collect();
        arguments
    }

    fn option(&mut self, word: &str) {
        match OPTIONS.into_iter().find(|option| *option == word) {
            Some(option) => self.options.push(option),
            None => self.is_wrong(format!("there is no option {}", quoted(word))),
        }
    }

    fn list(&mut self, name: Option<OsString>) {
        self.options.push(FILES_FROM);
        match name {
            Some(name) => self.lists.push(name),
            None => self.is_wrong(format!("behind {FILES_FROM} the name of a list is missing")),
        }
    }

    fn is_wrong(&mut self, what: String) {
        self.wrong.get_or_insert(what);
    }

    pub fn has(&self, option: &str) -> bool {
        self.options.contains(&option)
    }
}

/// The name of a list that is joined to its option.
fn joined(word: &OsStr) -> Option<OsString> {
    let name = word.as_bytes().strip_prefix(FILES_FROM.as_bytes())?.strip_prefix(b"=")?;
    Some(OsStr::from_bytes(name).to_os_string())
}

/// A word of the command line as a message quotes it.
pub fn quoted(word: impl AsRef<OsStr>) -> String {
    match shown(word) {
        empty if empty.is_empty() => String::from("an empty word"),
        word => format!("`{word}`"),
    }
}

/// The number that a word says.
pub fn number_of(what: &str, word: &OsStr) -> Result<u64, String> {
    let number = word.to_str().and_then(digits);
    number.ok_or_else(|| format!("expected the number of {what}, found {}", quoted(word)))
}
