//! A day's fills as readable text.

use std::fmt::Write;

use super::errors::{TextError, TextErrors};
use super::line::leg_words;
use super::names::{name_of, ACTIONS};
use super::parse::{add, each_line};
use super::record::fill;
use super::words::Words;
use usm_values::{Fill, MOST_FILLS};

/// The word that opens a text of fills.
const SECTION: &str = "fills";

/// What has been read so far.
#[derive(Default)]
struct Reading {
    opened: bool,
    told_of_start: bool,
    fills: Vec<Fill>,
}

/// The fills a text describes, in the format [`super::FILLS_FORMAT`] tells of, or all that is wrong with it.
///
/// ```
/// let errors = usm::text::parse_fills("fills\n  open 1").unwrap_err();
/// assert_eq!(errors.to_string(), "line 2, column 8: expected `long` or `short`, found `1`");
/// ```
pub fn parse_fills(text: &str) -> Result<Vec<Fill>, TextErrors> {
    let mut reading = Reading::default();
    each_line(text, |words| reading.line(words))?;
    Ok(reading.fills)
}

impl Reading {
    fn line(&mut self, mut words: Words) -> Result<(), TextError> {
        match words.peek() {
            None => return Ok(()),
            Some(SECTION) if !self.opened => {
                self.opened = true;
                words.skip();
            }
            Some(_) if !self.opened => return self.before_section(&words),
            Some(_) => add(&mut self.fills, MOST_FILLS, SECTION, &mut words, fill)?,
        }
        words.end()
    }

    /// A text that is none of fills at all is told so once.
    fn before_section(&mut self, words: &Words) -> Result<(), TextError> {
        if self.told_of_start {
            return Ok(());
        }
        self.told_of_start = true;
        Err(words.error("the section `fills`"))
    }
}

/// The fills as text that [`parse_fills`] reads.
pub fn show_fills(fills: &[Fill]) -> String {
    let mut text = format!("{SECTION}\n");
    for fill in fills {
        let words = format!("{:<5} {}", name_of(fill.action, ACTIONS), leg_words(&fill.leg));
        writeln!(text, "  {words}").expect("a string takes all text");
    }
    text
}

#[cfg(test)]
mod tests {
    use super::*;
    use usm_kit::accounts::{in_group, leg};
    use usm_values::Action;

    const LEG: &str = "long 1 call 60 2011-05-21 unit 100 underlying 7 american listed";

    fn error_of(text: &str) -> String {
        parse_fills(text).unwrap_err().to_string()
    }

    #[test]
    fn what_is_shown_is_read() {
        let fill = |action, notation| Fill { action, leg: in_group(0, leg(notation)) };
        let fills = [fill(Action::Open, "L60c"), fill(Action::Close, "S50p")];
        assert_eq!(parse_fills(&show_fills(&fills)), Ok(fills.to_vec()));
        assert_eq!(parse_fills("# none\n"), Ok(Vec::new()));
        assert_eq!(parse_fills(&show_fills(&[])), Ok(Vec::new()));
    }

    #[test]
    fn errors_say_where_and_what() {
        assert_eq!(
            error_of(&format!("open {LEG}\nopen {LEG}")),
            "line 1, column 1: expected the section `fills`, found `open`"
        );
        assert_eq!(
            error_of(&format!("fills\n{LEG}\nopen {LEG} now\nfills")),
            "line 2, column 1: expected `open` or `close`, found `long`\n\
             line 3, column 70: expected `cash` or `physical`, or the end of the line, found `now`\n\
             line 4, column 1: expected `open` or `close`, found `fills`"
        );
    }

    #[test]
    fn a_day_has_a_limit() {
        let full = format!("fills\n{}", format!("open {LEG}\n").repeat(1_024));
        assert_eq!(parse_fills(&full).map(|fills| fills.len()), Ok(1_024));
        let message = "line 1026, column 1: expected no more than 1024 fills, found `open`";
        assert_eq!(error_of(&format!("{full}open {LEG}\nopen {LEG}")), message);
    }
}
