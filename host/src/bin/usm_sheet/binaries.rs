//! Credit event binaries: the margin of one position or of a pair with the cells of the circular's tables that it
//! comes from, and the tables themselves.

use std::ffi::OsString;
use std::fmt::Write;
use std::process::ExitCode;

use usm::numbers::{count, dollars};
use usm::{
    binary_cell, binary_margin, binary_pair, sentences, Binary, Cell, LongBinary, Refusal, Side, SPREADS,
    TIMES,
};

use crate::output::print;
use crate::program;
use crate::words::Words;

/// What a contract settles at, in mills.
const SETTLEMENT_VALUE: i64 = 1_000_000;

/// The margin of one position.
pub fn binary(words: &[OsString]) -> Result<ExitCode, String> {
    let mut words = Words::of(words, "binary");
    let side = words.value("`long` or `short`", |word| {
        [Side::Long, Side::Short].into_iter().find(|side| side_name(*side) == word)
    })?;
    let spread = spread(&mut words)?;
    let valuation = words.date("valued")?;
    let (expiry, contracts) = (words.date("expires")?, contracts(&mut words)?);
    words.end()?;
    let position = Binary { reference: 0, spread, expiry, contracts };
    match told(side, valuation, &position, contracts) {
        Ok(told) => print(&told),
        Err(refusal) => Ok(refused(
            "binary",
            &refusal,
            &sentences::of_binary(spread, valuation, expiry, contracts, &refusal),
        )),
    }
}

/// The margin of a long and a short beside each other.
pub fn pair(words: &[OsString]) -> Result<ExitCode, String> {
    let mut words = Words::of(words, "pair");
    let valuation = words.date("valued")?;
    let binary = position("long", &mut words)?;
    let long = LongBinary { binary, paid: words.flag("paid") };
    let short = position("short", &mut words)?;
    words.end()?;
    match told_of_pair(valuation, long, short) {
        Ok(told) => print(&told),
        Err(refusal) => {
            Ok(refused("pair", &refusal, &sentences::of_pair(valuation, &long, &short, &refusal)))
        }
    }
}

/// Both of the circular's tables.
pub fn tables() -> Result<ExitCode, String> {
    let head = format!(
        "Margin of credit event binaries (circular RG11-039), in percent of the settlement value of {} a contract,\n\
         by the spread in basis points and the time until expiration. A spread on an edge is in the higher row.\n",
        dollars(SETTLEMENT_VALUE)
    );
    print(&[head, table(Side::Long), table(Side::Short)].join("\n"))
}

fn spread(words: &mut Words) -> Result<u64, String> {
    words.number("spread", "whole basis points")
}

fn contracts(words: &mut Words) -> Result<u64, String> {
    words.number("contracts", "a whole number")
}

/// A position of a pair, from the name of its side on.
fn position(side: &str, words: &mut Words) -> Result<Binary, String> {
    Ok(Binary {
        reference: words.number(side, "the number of the reference obligation")?,
        spread: spread(words)?,
        expiry: words.date("expires")?,
        contracts: contracts(words)?,
    })
}

fn side_name(side: Side) -> &'static str {
    match side {
        Side::Long => "long",
        Side::Short => "short",
    }
}

fn in_money(mills: i64) -> String {
    format!("{} ({mills} mills)", dollars(mills))
}

/// Mills of the settlement value, as the circular's percentages are written.
fn percent(mills: i64) -> String {
    let tenths = mills * 1_000 / SETTLEMENT_VALUE;
    match tenths % 10 {
        0 => format!("{}%", tenths / 10),
        tenth => format!("{}.{tenth}%", tenths / 10),
    }
}

/// What so many contracts of a position need, and the cell that says so.
fn told(side: Side, valuation: u64, position: &Binary, contracts: u64) -> Result<String, Refusal> {
    let Binary { spread, expiry, .. } = *position;
    let margin = binary_margin(side, spread, valuation, expiry, contracts)?;
    let cell = binary_cell(spread, valuation, expiry)?;
    Ok(format!(
        "{}: {}, margin {}: {} of {} each, spread {}, {}\n",
        side_name(side),
        count(contracts, "contract"),
        in_money(margin),
        percent(cell.of_one(side)),
        dollars(SETTLEMENT_VALUE),
        SPREADS[cell.row],
        TIMES[cell.column],
    ))
}

/// The margin of a pair, what is matched, and what is left of each.
fn told_of_pair(valuation: u64, long: LongBinary, short: Binary) -> Result<String, Refusal> {
    let margin = binary_pair(valuation, long, short)?;
    let both = [(Side::Long, long.binary), (Side::Short, short)];
    let needs = |contracts: fn(&Binary) -> u64| -> Result<i64, Refusal> {
        both.iter()
            .map(|(side, of)| binary_margin(*side, of.spread, valuation, of.expiry, contracts(of)))
            .sum()
    };
    // Each match saves what one contract of either needs.
    let matched = ((needs(|of| of.contracts)? - margin) / needs(|_| 1)?) as u64;
    let mut told = format!("margin {}\n", in_money(margin));
    told += &match matched {
        0 => format!("matched: nothing, for {}\n", unmatched(&long, &short)),
        matched => format!("matched: {} of each, which need nothing\n", count(matched, "contract")),
    };
    for (side, of) in &both {
        told += &match of.contracts - matched {
            0 => format!("{}: nothing left\n", side_name(*side)),
            left => self::told(*side, valuation, of, left)?,
        };
    }
    Ok(told)
}

/// Why a pair is not matched.
fn unmatched(long: &LongBinary, short: &Binary) -> &'static str {
    if long.binary.reference != short.reference {
        "the reference obligations differ"
    } else if !long.paid {
        "the long is not paid for in full"
    } else {
        "the long expires before the short"
    }
}

/// One side's table; every percentage is the library's own.
fn table(side: Side) -> String {
    let mut text = format!("{:<12}", side_name(side));
    for time in TIMES {
        write!(text, "  {time:>17}").expect("a String takes every word");
    }
    text.push('\n');
    for (row, spread) in SPREADS.iter().enumerate() {
        write!(text, "{spread:<12}").expect("a String takes every word");
        for column in 0..TIMES.len() {
            let cell = percent(Cell { row, column }.of_one(side));
            write!(text, "  {cell:>17}").expect("a String takes every word");
        }
        text.push('\n');
    }
    text
}

fn refused(command: &str, refusal: &Refusal, sentence: &str) -> ExitCode {
    program::tell(&format!("{command}: refusal {}: {sentence}", refusal.number));
    ExitCode::from(1)
}
