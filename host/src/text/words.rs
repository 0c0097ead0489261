//! A line of text as words.

use std::fmt::Display;
use std::ops::RangeInclusive;

use super::errors::TextError;
use super::names::Names;

/// The words of one line, with their columns.
pub struct Words<'a> {
    line: usize,
    /// Column behind the last word, where a missing one is expected.
    end: usize,
    words: Vec<(usize, &'a str)>,
    at: usize,
    /// What might have stood before the next word, or before the end.
    might_be: String,
}

impl<'a> Words<'a> {
    pub fn of(line: usize, text: &'a str) -> Words<'a> {
        let code = text.split('#').next().unwrap_or_default();
        let mut words = Vec::new();
        let mut column = 1;
        for piece in code.split_inclusive(char::is_whitespace) {
            let word = piece.trim_end();
            if !word.is_empty() {
                words.push((column, word));
            }
            column += piece.chars().count();
        }
        let end = words.last().map_or(1, |(column, word)| column + word.chars().count());
        Words { line, end, words, at: 0, might_be: String::new() }
    }

    pub fn peek(&self) -> Option<&'a str> {
        self.words.get(self.at).map(|(_, word)| *word)
    }

    pub fn skip(&mut self) {
        self.at += 1;
        self.might_be.clear();
    }

    pub fn error(&self, expected: &str) -> TextError {
        TextError {
            line: self.line,
            column: self.words.get(self.at).map_or(self.end, |(column, _)| *column),
            expected: String::from(expected),
            found: self.peek().map(String::from),
        }
    }

    /// What was expected here, behind what might have stood before it.
    fn missing(&self, expected: &str) -> TextError {
        self.error(&format!("{}{expected}", self.might_be))
    }

    /// The next word, read by `read`.
    pub fn value<T>(&mut self, expected: &str, read: impl Fn(&str) -> Option<T>) -> Result<T, TextError> {
        let value = self.peek().and_then(read).ok_or_else(|| self.missing(expected))?;
        self.skip();
        Ok(value)
    }

    /// A number in a range, of the type that the range has.
    pub fn number<T>(&mut self, what: &str, range: RangeInclusive<T>) -> Result<T, TextError>
    where
        T: TryFrom<u64> + PartialOrd + Display,
    {
        let expected = format!("{what} from {} to {}", range.start(), range.end());
        self.value(&expected, |word| {
            digits(word).and_then(|number| T::try_from(number).ok()).filter(|number| range.contains(number))
        })
    }

    /// One of two words; `or_else` tells what else the line might have started with.
    pub fn choose<T: Copy>(&mut self, names: Names<T>, or_else: &str) -> Result<T, TextError> {
        let expected = format!("`{}` or `{}`{or_else}", names[0].0, names[1].0);
        self.value(&expected, |word| names.iter().find(|(name, _)| *name == word).map(|(_, value)| *value))
    }

    /// One of two words, or none of them.
    pub fn optional<T: Copy>(&mut self, names: Names<T>) -> Option<T> {
        let word = self.peek();
        let found = names.iter().find(|(name, _)| word == Some(name));
        match found {
            Some(_) => self.skip(),
            None => self.might_be += &format!("`{}` or `{}`, or ", names[0].0, names[1].0),
        }
        found.map(|(_, value)| *value)
    }

    /// Whether this word stands here.
    pub fn flag(&mut self, name: &str) -> bool {
        let stands = self.peek() == Some(name);
        if stands {
            self.skip();
        } else {
            self.might_be += &format!("`{name}`, or ");
        }
        stands
    }

    /// Just this word.
    pub fn word(&mut self, name: &str) -> Result<(), TextError> {
        self.value(&format!("`{name}`"), |word| (word == name).then_some(()))
    }

    pub fn end(&self) -> Result<(), TextError> {
        match self.peek() {
            Some(_) => Err(self.missing("the end of the line")),
            None => Ok(()),
        }
    }
}

/// Digits only: no sign, and nothing that `u64` would not hold.
pub fn digits(word: &str) -> Option<u64> {
    let all_digits = !word.is_empty() && word.bytes().all(|byte| byte.is_ascii_digit());
    all_digits.then(|| word.parse().ok()).flatten()
}
