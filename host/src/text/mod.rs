//! A sheet, a day's fills and a table of roots as readable text. [`parse`] reads what [`show`] prints, to the same sheet.

mod errors;
mod escape;
mod fills;
mod line;
mod names;
mod parse;
mod record;
mod roots;
mod show;
mod values;
mod words;

pub use errors::{Errors, TextError, TextErrors};
pub use escape::{escaped, escaped_bytes};
pub(crate) use escape::{line_of_bytes, quoted};
pub use fills::{parse_fills, show_fills};
pub use line::date_text;
pub(crate) use line::{
    fill_text, leg_text, market_name, placed_text, raw_text, series_text, side_name, style_name, words_of,
};
pub(crate) use names::{name_of, Names, ACTIONS, MARKETS, SETTLEMENTS, SIDES, STYLES, TYPES};
pub(crate) use parse::is_section;
pub use parse::parse;
pub(crate) use roots::terms_text;
pub use roots::{parse_roots, show_roots};
pub use show::{show, show_held, show_holdings, show_placement};
pub(crate) use values::{date, strike, EXPIRY, STRIKE};
pub use words::digits;

/// The text format, as the help of `usm_sheet` prints it.
pub const FORMAT: &str = "\
A sheet is three sections, each named on a line of its own, with one record a line:

  # what this sheet shows
  holdings
    long  10 call 60.000 2011-05-21 unit 100 underlying 7 american listed
    short 10 call 65.000 2011-05-21 unit 100 underlying 7 american listed
  placement
    group 1  long  10 call 60.000 2011-05-21 unit 100 underlying 7 american listed
    group 1  short 10 call 65.000 2011-05-21 unit 100 underlying 7 american listed
  claims
    claim 1 0

A leg reads: side (long, short), contracts, type (call, put), strike in dollars with up
to three decimals, expiry, `unit` and the unit size, `underlying` and its number, style
(american, european), market (listed, otc), settlement (cash, physical) unless it is not
stated, and the word `paid` if it is marked so, as an unplaced long has to be. In the
placement `group` and its number, or the word `unplaced`, come first. A claim is the
group and its margin in mills (1/1000 dollar), as the checker prints them, or in dollars
behind a `$`, as $1,000.000. A section may be left out or empty; each stands at most once,
in this order. Before them a line `account` and its number may stand: then the sheet file
is of the new form, which says it in each block. Blanks are free, `#` starts a comment,
empty lines do not count.
";

/// The text format of a day's fills.
pub const FILLS_FORMAT: &str = "\
A day's fills are one section, with one fill a line, in the order in which they came:

  fills
    open  long  5 call 60.000 2011-05-21 unit 100 underlying 7 american listed
    close short 2 call 65.000 2011-05-21 unit 100 underlying 7 american listed

A fill reads `open` or `close`, then a leg as in the holdings: it adds to the lot of its own
side, or takes from it.
";

/// The text format of a table of roots.
pub const ROOTS_FORMAT: &str = "\
A table of roots tells what the roots of option symbols stand for, one root a line:

  SPX   european listed unit 100 cash underlying 7
  AAPL  american listed unit 100 physical underlying 8
  AAPL7 american listed unit 10 underlying 8

A root is 1 to 6 of A-Z and 0-9, a letter first. Behind it come style, market, `unit` and the
unit size, settlement unless it is not stated, and `underlying` and its number. There are 1 to
256 roots; no two have the same name, and no two the same terms.
";

/// The format of a list of option symbols, which is that of its bytes.
pub const LIST_FORMAT: &str = "\
A list of option symbols has a line for each record of the holdings, and nothing else:

AAPL  110521C00060000 L 10
AAPL  110521C00065000 S 10

A line has the root in columns 1 to 6, with blanks behind it; the expiry YYMMDD, of 2000 to
2099; C or P; the strike in mills (1/1000 dollar) as 8 digits; a blank; L or S; a blank; and
the contracts, 1 to 100000. Every line, the last one too, ends in a newline, and none in a
carriage return. There are no comments, and at most 256 lines.
";
