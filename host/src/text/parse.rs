//! From text to a sheet, with errors that say where and what was expected.

use super::errors::{TextError, TextErrors};
use super::record::{claim, holding, placed_leg};
use super::words::Words;
use crate::sheet::Sheet;
use usm_values::{MOST_CLAIMS, MOST_LEGS};

#[derive(Clone, Copy, PartialEq, Eq, PartialOrd)]
enum Section {
    Start,
    Holdings,
    Placement,
    Claims,
}

/// What has been read so far.
struct Reading {
    section: Section,
    /// Whether it has been told that a record stands before the first section.
    told_of_start: bool,
    sheet: Sheet,
}

/// The sheet a text describes, in the format [`super::FORMAT`] tells of, or all that is wrong with it.
/// A byte order mark before the text is skipped.
///
/// ```
/// let errors = usm::text::parse("holdings\n  long 10 call 60.0001").unwrap_err();
/// assert_eq!(
///     errors.to_string(),
///     "line 2, column 16: expected a strike in dollars from 0.001 to 99999.999 with up to three \
///      decimals, found `60.0001`"
/// );
/// ```
pub fn parse(text: &str) -> Result<Sheet, TextErrors> {
    let mut reading = Reading { section: Section::Start, told_of_start: false, sheet: Sheet::default() };
    each_line(text, |words| reading.line(words))?;
    Ok(reading.sheet)
}

/// Reads a text line by line: an error in one does not keep the others from being looked at.
pub(super) fn each_line(
    text: &str,
    mut read: impl FnMut(Words) -> Result<(), TextError>,
) -> Result<(), TextErrors> {
    let mut errors = TextErrors::default();
    let text = text.strip_prefix('\u{FEFF}').unwrap_or(text);
    for (index, line) in text.lines().enumerate() {
        if let Err(error) = read(Words::of(index + 1, line)) {
            errors.add(error);
        }
    }
    if errors.listed().is_empty() {
        Ok(())
    } else {
        Err(errors)
    }
}

/// Whether the word opens a section.
pub fn is_section(word: &str) -> bool {
    section_named(word).is_some()
}

fn section_named(word: &str) -> Option<Section> {
    match word {
        "holdings" => Some(Section::Holdings),
        "placement" => Some(Section::Placement),
        "claims" => Some(Section::Claims),
        _ => None,
    }
}

impl Reading {
    fn line(&mut self, mut words: Words) -> Result<(), TextError> {
        let first = match words.peek() {
            Some(first) => first,
            None => return Ok(()),
        };
        match section_named(first) {
            _ if first == "account" => self.account(&mut words)?,
            Some(next) => self.open(next, &mut words)?,
            None if self.section == Section::Start => return self.before_sections(&words),
            None => self.record(&mut words)?,
        }
        words.end()
    }

    /// What follows is read as this section's records even where it should not stand here, so that one
    /// misplaced word is one error.
    fn open(&mut self, next: Section, words: &mut Words) -> Result<(), TextError> {
        let in_order = next > self.section;
        self.section = next;
        if !in_order {
            return Err(words.error("each section at most once, in the order holdings, placement, claims"));
        }
        words.skip();
        Ok(())
    }

    /// The number of the account, before the first section.
    fn account(&mut self, words: &mut Words) -> Result<(), TextError> {
        if self.section != Section::Start || self.sheet.account != 0 {
            return Err(words.error("the account at most once, and before the sections"));
        }
        words.skip();
        self.sheet.account = words.number("the number of an account", 1..=u64::MAX)?;
        Ok(())
    }

    /// A text that is no sheet at all is told so once.
    fn before_sections(&mut self, words: &Words) -> Result<(), TextError> {
        if self.told_of_start {
            return Ok(());
        }
        self.told_of_start = true;
        Err(words.error("the section `holdings`, `placement` or `claims`"))
    }

    fn record(&mut self, words: &mut Words) -> Result<(), TextError> {
        let Sheet { holdings, placement, claims, .. } = &mut self.sheet;
        match self.section {
            Section::Start | Section::Holdings => add(holdings, MOST_LEGS, "holdings", words, holding),
            Section::Placement => add(placement, MOST_LEGS, "records in the placement", words, placed_leg),
            Section::Claims => add(claims, MOST_CLAIMS, "claims", words, claim),
        }
    }
}

/// Reads a record of a table. The first one past the table's limit is an error, and those behind it are
/// none of their own.
pub(super) fn add<T>(
    table: &mut Vec<T>,
    most: usize,
    what: &str,
    words: &mut Words,
    read: fn(&mut Words) -> Result<T, TextError>,
) -> Result<(), TextError> {
    let too_many = words.error(&format!("no more than {most} {what}"));
    table.push(read(words)?);
    if table.len() == most + 1 {
        Err(too_many)
    } else {
        Ok(())
    }
}

#[cfg(test)]
mod tests {
    use super::*;
    use usm_values::Settlement;

    fn error_of(text: &str) -> String {
        parse(text).unwrap_err().to_string()
    }

    const LEG: &str = "long 1 call 60 2011-05-21 unit 100 underlying 7 american listed";

    #[test]
    fn errors_say_where_and_what() {
        assert_eq!(
            error_of("# sheet\n\n  long 1"),
            "line 3, column 3: expected the section `holdings`, `placement` or `claims`, found `long`"
        );
        assert_eq!(
            error_of("holdings\nlong 0 call"),
            "line 2, column 6: expected contracts from 1 to 100000, found `0`"
        );
        assert_eq!(
            error_of("holdings\nlong 1 call 60  # no more"),
            "line 2, column 15: expected an expiry YYYY-MM-DD, a real date from 2000-01-01 to 2099-12-31, \
             found the end of the line"
        );
        assert_eq!(
            error_of(&format!("holdings\n{LEG} again")),
            "line 2, column 65: expected `cash` or `physical`, or `paid`, or the end of the line, found `again`"
        );
        assert_eq!(
            error_of("claims\nclaim 1 1000.00"),
            "line 2, column 9: expected a margin in whole mills, 1000000 for 1,000 dollars, \
             from 0 to 2560000000000000000, or in dollars behind a `$`, as $1,000.000, found `1000.00`"
        );
        assert_eq!(
            error_of("claims\nholdings\n"),
            "line 2, column 1: expected each section at most once, in the order holdings, placement, \
             claims, found `holdings`"
        );
        assert_eq!(
            error_of(&format!("placement\ngroup 33 {LEG}")),
            "line 2, column 7: expected a group from 1 to 32, found `33`"
        );
    }

    #[test]
    fn a_table_has_a_limit() {
        let full = format!("holdings\n{}", format!("{LEG}\n").repeat(256));
        assert_eq!(parse(&full).map(|sheet| sheet.holdings.len()), Ok(256));
        assert_eq!(
            error_of(&format!("{full}{LEG}")),
            "line 258, column 1: expected no more than 256 holdings, found `long`"
        );
        let errors = parse(&format!("{full}{LEG}\n{LEG}\n{LEG}")).unwrap_err();
        assert_eq!((errors.listed().len(), errors.unlisted()), (1, 0));
        let full = format!("placement\n{}", format!("unplaced {LEG}\n").repeat(256));
        assert_eq!(parse(&full).map(|sheet| sheet.placement.len()), Ok(256));
        assert_eq!(
            error_of(&format!("{full} unplaced {LEG}")),
            "line 258, column 2: expected no more than 256 records in the placement, found `unplaced`"
        );
        let full = format!("claims\n{}", "claim 32 7\n".repeat(32));
        assert_eq!(parse(&full).map(|sheet| sheet.claims.len()), Ok(32));
        assert_eq!(
            error_of(&format!("{full}claim 32 7\nclaim 32 7")),
            "line 34, column 1: expected no more than 32 claims, found `claim`"
        );
    }

    #[test]
    fn sections_may_be_left_out_and_placement_may_be_unplaced() {
        let sheet = parse(&format!("placement\n\tunplaced {LEG}\r\n")).unwrap();
        assert_eq!(sheet.placement.len(), 1);
        assert_eq!(sheet.placement[0].group, 0);
        assert_eq!(parse(""), Ok(Sheet::default()));
    }

    #[test]
    fn settlement_may_be_stated() {
        let text = format!("holdings\n{LEG} cash\n{LEG} physical\n{LEG}");
        let stated: Vec<Settlement> =
            parse(&text).unwrap().holdings.into_iter().map(|leg| leg.settlement).collect();
        assert_eq!(stated, [Settlement::Cash, Settlement::Physical, Settlement::NotStated]);
        assert_eq!(
            error_of(&format!("holdings\n{LEG} cash cash")),
            "line 2, column 70: expected `paid`, or the end of the line, found `cash`"
        );
    }

    #[test]
    fn a_leg_may_be_marked_as_paid() {
        let text = format!("holdings\n{LEG} paid\nplacement\nunplaced {LEG} cash paid\ngroup 1 {LEG}");
        let sheet = parse(&text).unwrap();
        assert!(sheet.holdings[0].paid && sheet.placement[0].paid && !sheet.placement[1].paid);
        assert_eq!(sheet.placement[0].settlement, Settlement::Cash);
        assert_eq!(
            error_of(&format!("holdings\n{LEG} paid cash")),
            "line 2, column 70: expected the end of the line, found `cash`"
        );
    }

    #[test]
    fn an_account_stands_before_the_sections() {
        let sheet = parse("# mine\naccount 18446744073709551615\nholdings\n").unwrap();
        assert_eq!(sheet, Sheet { account: u64::MAX, ..Sheet::default() });
        assert_eq!(
            error_of("account 0\nholdings\naccount 7"),
            "line 1, column 9: expected the number of an account from 1 to 18446744073709551615, found `0`\n\
             line 3, column 1: expected the account at most once, and before the sections, found `account`"
        );
        let twice =
            "line 2, column 1: expected the account at most once, and before the sections, found `account`";
        assert_eq!(error_of("account 7\naccount 7"), twice);
    }

    #[test]
    fn all_errors_are_told_one_a_line() {
        let text = format!("holdings\n lang 1\n{LEG}\nplacement\nclaims 1\nclaim 0 0\nplacement\n{LEG}");
        assert_eq!(
            error_of(&text),
            "line 2, column 2: expected `long` or `short`, or the section `placement` or `claims`, found `lang`\n\
             line 5, column 8: expected the end of the line, found `1`\n\
             line 6, column 7: expected a group from 1 to 32, found `0`\n\
             line 7, column 1: expected each section at most once, in the order holdings, placement, \
             claims, found `placement`\n\
             line 8, column 1: expected `group` or `unplaced`, or the section `claims`, found `long`"
        );
    }

    #[test]
    fn errors_behind_the_twentieth_are_counted() {
        let errors = parse(&format!("holdings\n{}", "short\n".repeat(20))).unwrap_err();
        assert_eq!((errors.listed().len(), errors.unlisted()), (20, 0));
        let last = |count: usize| {
            let text = format!("holdings\n{}", "short\n".repeat(count));
            error_of(&text).lines().last().map(String::from)
        };
        assert_eq!(last(21).as_deref(), Some("and 1 more error"));
        assert_eq!(last(57).as_deref(), Some("and 37 more errors"));
    }

    #[test]
    fn what_is_no_sheet_at_all_is_told_so_once() {
        assert_eq!(
            error_of("once upon\na time\nthere was\n"),
            "line 1, column 1: expected the section `holdings`, `placement` or `claims`, found `once`"
        );
    }

    #[test]
    fn a_byte_order_mark_is_skipped_and_control_characters_are_escaped() {
        assert_eq!(parse("\u{FEFF}holdings\n"), Ok(Sheet::default()));
        assert_eq!(
            error_of("\u{FEFF}\u{1b}[2Jholdings"),
            "line 1, column 1: expected the section `holdings`, `placement` or `claims`, \
             found `\\u{1b}[2Jholdings`"
        );
        assert_eq!(
            error_of("\u{FEFF}\u{FEFF}holdings"),
            "line 1, column 1: expected the section `holdings`, `placement` or `claims`, \
             found `\\u{feff}holdings`"
        );
    }

    #[test]
    fn columns_count_characters_and_not_bytes() {
        let wide = "\u{3000}"; // a blank of three bytes
        assert_eq!(
            error_of(&format!("holdings\n{wide}{wide}long{wide}1{wide}cäll")),
            "line 2, column 10: expected `call` or `put`, found `cäll`"
        );
        assert_eq!(
            error_of(&format!("holdings\nlong{wide}1{wide}")),
            "line 2, column 7: expected `call` or `put`, found the end of the line"
        );
    }
}
