//! Lists of option symbols as members send them, the roots that they are read by, and holdings to be listed.

use usm::text::{parse_roots, show_holdings};
use usm::{holdings_of_list, Leg, Style, MOST_LINES};

/// Roots that every list of the samples is read by; the last one leaves its settlement open.
const ROOTS: &str = "\
# What the roots of the lists stand for: a mini has a root of its own.
SPX    european listed unit 100 cash underlying 7
AAPL   american listed unit 100 physical underlying 8
AAPL7  american listed unit 10 physical underlying 8
BK1    european otc unit 1000 underlying 9
";

const LIST: &str = "\
AAPL  110521C00060000 L 10
AAPL  110521C00065000 S 5
AAPL7 110521C00065000 S 50
SPX   110618P01250000 L 3
SPX   110618P01300000 S 3
BK1   120229P00000500 L 100000
";

/// Each is refused by `ROOTS`.
const REFUSED_LISTS: [(&str, &str); 5] = [
    (
        "contracts-zero.txt",
        "SPX   110618P01250000 L 3\nSPX   110618P01300000 S 3\nAAPL  110521C00060000 L 0\n",
    ),
    ("from-windows.txt", "AAPL  110521C00060000 L 10\r\nAAPL  110521C00065000 S 10\r\n"),
    ("no-newline.txt", "AAPL  110521C00060000 L 10\nAAPL  110521C00065000 S 10"),
    ("no-such-date.txt", "AAPL  120229C00060000 L 10\nAAPL  110229C00060000 S 10\n"),
    ("root-not-there.txt", "AAPL  110521C00060000 L 10\nAAPL1 110521C00065000 S 10\n"),
];

/// Each refuses every list.
const REFUSED_ROOTS: [(&str, &str); 2] = [
    (
        "roots-name-twice.txt",
        "SPX    european listed unit 100 cash underlying 7\n\
         AAPL   american listed unit 100 physical underlying 8\n\
         SPX    european listed unit 100 cash underlying 9\n",
    ),
    (
        "roots-terms-twice.txt",
        "SPX    european listed unit 100 cash underlying 7\n\
         SPXW   european listed unit 100 cash underlying 7\n",
    ),
];

/// The names and the texts of the samples.
pub fn texts() -> Result<Vec<(&'static str, String)>, String> {
    let roots = parse_roots(ROOTS).map_err(|errors| errors.to_string())?;
    let holdings = holdings_of_list(&roots, LIST.as_bytes()).map_err(|refusal| refusal.to_string())?;
    let paid = Leg { paid: true, ..holdings[0] };
    let european = Leg { style: Style::European, ..holdings[0] };
    let made = [
        ("holdings.txt", show_holdings(&holdings)),
        ("held-paid.txt", show_holdings(&[holdings[1], paid])),
        ("held-without-root.txt", show_holdings(&[european, holdings[1]])),
        ("too-many-lines.txt", "AAPL  110521C00060000 L 1\n".repeat(MOST_LINES + 1)),
    ];
    let given =
        [("roots.txt", ROOTS), ("list.txt", LIST)].into_iter().chain(REFUSED_LISTS).chain(REFUSED_ROOTS);
    Ok(given.map(|(name, text)| (name, String::from(text))).chain(made).collect())
}
