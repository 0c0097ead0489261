//! Words of others in messages of ours: nothing in them moves a cursor or fills a screen.

/// More characters of a word, and more bytes of a line, than this are left out of a message.
const LONGEST_WORD: usize = 60;

/// A text with its control characters, and all else that does not show, written as escapes.
///
/// ```
/// assert_eq!(usm::text::escaped("a\u{1b}[2J\"b\""), "a\\u{1b}[2J\"b\"");
/// ```
pub fn escaped(text: &str) -> String {
    text.chars().map(escaped_character).collect()
}

fn escaped_character(c: char) -> String {
    match c {
        '"' | '\'' => String::from(c),
        _ => c.escape_debug().collect(),
    }
}

/// Bytes that should be text, as [`escaped`] has it; those that are no UTF-8 are escaped too.
pub fn escaped_bytes(mut bytes: &[u8]) -> String {
    let mut shown = String::new();
    loop {
        match std::str::from_utf8(bytes) {
            Ok(text) => return shown + &escaped(text),
            Err(error) => {
                let (good, bad) = bytes.split_at(error.valid_up_to());
                shown += &escaped(&String::from_utf8_lossy(good));
                shown += &format!("\\x{:02x}", bad[0]);
                bytes = &bad[1..];
            }
        }
    }
}

/// A line of bytes as a message has it: escaped, and shortened where it is very long.
pub fn line_of_bytes(line: &[u8]) -> String {
    match line.len() {
        0..=LONGEST_WORD => escaped_bytes(line),
        _ => escaped_bytes(&line[..LONGEST_WORD]) + "..",
    }
}

/// A word as a message quotes it: escaped, and shortened where it is very long.
pub fn quoted(word: &str) -> String {
    let cut = word.char_indices().nth(LONGEST_WORD).map(|(at, _)| &word[..at]);
    match cut {
        Some(start) => format!("`{}..`", escaped(start)),
        None => format!("`{}`", escaped(word)),
    }
}

#[cfg(test)]
mod tests {
    use super::*;

    #[test]
    fn words_are_shown_as_they_are_unless_they_do_not_show() {
        assert_eq!(quoted("short"), "`short`");
        assert_eq!(quoted("d'été"), "`d'été`");
        assert_eq!(quoted("\u{7}\u{202e}\0"), "`\\u{7}\\u{202e}\\0`");
        assert_eq!(quoted(&"x".repeat(60)), format!("`{}`", "x".repeat(60)));
        assert_eq!(quoted(&"x".repeat(61)), format!("`{}..`", "x".repeat(60)));
        assert_eq!(line_of_bytes(b"A\xFF\r"), "A\\xff\\r");
        assert_eq!([60, 61].map(|length| line_of_bytes(&vec![b'x'; length]).len()), [60, 62]);
    }
}
