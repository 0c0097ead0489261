//! What is asked, and an entry of the table.

use usm::Refusal;

/// A name for what is wrong, and a file in which it is.
pub type Case = (String, Vec<u8>);

/// Two lines: what is asked, and the sentence below it.
pub fn entry(name: &str, refusal: &Refusal, sentence: &str) -> String {
    format!("{name}: {}  {sentence}\n", refusal.line())
}
