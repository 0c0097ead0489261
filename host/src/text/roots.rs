//! A table of roots as readable text.

use std::fmt::Write;

use super::errors::{TextError, TextErrors};
use super::line::{behind_blank, settlement_word};
use super::names::{name_of, MARKETS, STYLES};
use super::parse::{add, each_line};
use super::record::{settlement, underlying, unit_size};
use super::words::Words;
use usm_values::{padded_root, Root, MOST_ROOTS, ROOT_NAME_BYTES};

/// The roots a text describes, in the format [`super::ROOTS_FORMAT`] tells of, or all that is wrong with it.
/// That no two are the same is asked by the calls that take them (23).
///
/// ```
/// let errors = usm::text::parse_roots("SPX european listed unit 100 cash 7").unwrap_err();
/// assert_eq!(errors.to_string(), "line 1, column 35: expected `underlying`, found `7`");
/// ```
pub fn parse_roots(text: &str) -> Result<Vec<Root>, TextErrors> {
    let mut roots = Vec::new();
    each_line(text, |mut words| {
        if words.peek().is_some() {
            add(&mut roots, MOST_ROOTS, "roots", &mut words, root)?;
        }
        words.end()
    })?;
    Ok(roots)
}

fn root(words: &mut Words) -> Result<Root, TextError> {
    let name = words.value("a root, 1 to 6 of A-Z and 0-9 with a letter first", padded_root)?;
    let style = words.choose(STYLES, "")?;
    let market = words.choose(MARKETS, "")?;
    let unit_size = unit_size(words)?;
    let settlement = settlement(words);
    let underlying = underlying(words)?;
    Ok(Root { name, style, market, unit_size, settlement, underlying })
}

/// The roots as text that [`parse_roots`] reads.
///
/// ```
/// use usm::text::{parse_roots, show_roots};
/// let text = "SPX    european listed unit 100 cash underlying 7\n";
/// assert_eq!(show_roots(&parse_roots(text)?), text);
/// # Ok::<(), usm::text::TextErrors>(())
/// ```
pub fn show_roots(roots: &[Root]) -> String {
    let mut text = String::new();
    for root in roots {
        writeln!(text, "{:<ROOT_NAME_BYTES$} {}", root.text(), terms_text(root))
            .expect("a string takes all text");
    }
    text
}

/// What a root stands for.
pub fn terms_text(root: &Root) -> String {
    format!(
        "{} {} unit {}{} underlying {}",
        name_of(root.style, STYLES),
        name_of(root.market, MARKETS),
        root.unit_size,
        behind_blank(settlement_word(root.settlement)),
        root.underlying,
    )
}

#[cfg(test)]
mod tests {
    use super::*;

    fn error_of(text: &str) -> String {
        parse_roots(text).unwrap_err().to_string()
    }

    #[test]
    fn what_is_shown_is_read() {
        let text = "\u{FEFF}# mine\n\n  SPX european listed unit 100 cash underlying 7 # the index\r\n\
                    A1B2C3 american otc unit 1000 underlying 4294967295\nZ american listed unit 1 physical underlying 1";
        let roots = parse_roots(text).expect("roots");
        assert_eq!(roots.iter().map(Root::text).collect::<Vec<&str>>(), ["SPX", "A1B2C3", "Z"]);
        assert_eq!(terms_text(&roots[1]), "american otc unit 1000 underlying 4294967295");
        assert_eq!(parse_roots(&show_roots(&roots)), Ok(roots));
        assert_eq!(parse_roots("# none\n"), Ok(Vec::new()));
    }

    #[test]
    fn errors_say_where_and_what() {
        assert_eq!(
            error_of("spx european listed\nTOOLONG\nSPX europan\nSPX european listed unit 0\nSPX european listed unit 9 underlying 1 cash"),
            "line 1, column 1: expected a root, 1 to 6 of A-Z and 0-9 with a letter first, found `spx`\n\
             line 2, column 1: expected a root, 1 to 6 of A-Z and 0-9 with a letter first, found `TOOLONG`\n\
             line 3, column 5: expected `american` or `european`, found `europan`\n\
             line 4, column 26: expected a unit size from 1 to 1000, found `0`\n\
             line 5, column 41: expected the end of the line, found `cash`"
        );
        assert_eq!(
            error_of("SPX european listed unit 100"),
            "line 1, column 29: expected `cash` or `physical`, or `underlying`, found the end of the line"
        );
        assert_eq!(error_of(&"SPX\n".repeat(21)).lines().last(), Some("and 1 more error"));
    }

    #[test]
    fn a_table_has_a_limit() {
        let full = "SPX european listed unit 100 underlying 7\n".repeat(MOST_ROOTS);
        assert_eq!(parse_roots(&full).map(|roots| roots.len()), Ok(MOST_ROOTS));
        let message = "line 257, column 1: expected no more than 256 roots, found `SPX`";
        assert_eq!(error_of(&format!("{full}{full}")), message);
    }
}
