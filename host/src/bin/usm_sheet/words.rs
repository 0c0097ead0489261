//! A command that is said in words: each wrong or missing word is told with what was expected.

use std::ffi::OsString;

use usm::text::digits;

use crate::arguments::quoted;
use crate::usage;

pub struct Words<'a> {
    words: std::slice::Iter<'a, OsString>,
    /// The command whose words they are.
    command: &'static str,
    /// What else might have stood where the next word is.
    might_be: String,
}

impl<'a> Words<'a> {
    pub fn of(words: &'a [OsString], command: &'static str) -> Words<'a> {
        Words { words: words.iter(), command, might_be: String::new() }
    }

    fn peek(&self) -> Option<&'a OsString> {
        self.words.as_slice().first()
    }

    fn wrong(&self, expected: &str) -> String {
        let found = match self.peek() {
            Some(word) => quoted(word),
            None => String::from("the end of the command"),
        };
        format!("expected {}{expected}, found {found}\n{}", self.might_be, usage::line(self.command))
    }

    /// The next word, read by `read`.
    pub fn value<T>(&mut self, expected: &str, read: impl Fn(&str) -> Option<T>) -> Result<T, String> {
        let word = self.peek().and_then(|word| word.to_str());
        let value = word.and_then(read).ok_or_else(|| self.wrong(expected))?;
        self.words.next();
        self.might_be.clear();
        Ok(value)
    }

    /// Just this word.
    pub fn word(&mut self, name: &str) -> Result<(), String> {
        self.value(&format!("`{name}`"), |word| (word == name).then_some(()))
    }

    /// Whether this word stands here.
    pub fn flag(&mut self, name: &str) -> bool {
        let stands = self.word(name).is_ok();
        if !stands {
            self.might_be = format!("`{name}` or ");
        }
        stands
    }

    /// This word, and a whole number behind it.
    pub fn number(&mut self, name: &str, what: &str) -> Result<u64, String> {
        self.word(name)?;
        self.value(&format!("{what} behind `{name}`"), digits)
    }

    /// This word, and a date behind it, as the number YYYYMMDD that it is; whether there is such a day is not asked.
    pub fn date(&mut self, name: &str) -> Result<u64, String> {
        self.word(name)?;
        self.value(&format!("a date behind `{name}`, as 2011-03-15 or 20110315"), |word| {
            let parts: Vec<&str> = word.split('-').collect();
            match parts.as_slice() {
                [whole] if whole.len() == 8 => digits(whole),
                [year, month, day] if [year.len(), month.len(), day.len()] == [4, 2, 2] => {
                    digits(&parts.concat())
                }
                _ => None,
            }
        })
    }

    pub fn end(&self) -> Result<(), String> {
        match self.peek() {
            Some(_) => Err(self.wrong("the end of the command")),
            None => Ok(()),
        }
    }
}
