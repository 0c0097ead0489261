//! The library beside the model: the same inputs in one run, nanoseconds per call.
//!
//! Batches of the two take turns. Of each side the least and the middle time are shown, and of
//! the ratios of neighbouring batches the middle one and the range of their middle half, so that
//! a busy moment of the machine does not decide. Lent buffers are made once and not cleared
//! between calls. Words after the command choose the rows whose names have one of them. Beside a check of a sheet
//! stands how many intrinsic values it works out, and the library's time for each.

#![forbid(unsafe_code)]

mod binaries;
mod calls;
mod crafted;
mod fills;
mod inputs;
mod lists;
mod row;
mod rows;
mod times;

use row::Row;
use times::{measure, Measured};

fn main() {
    if let Ok(emulator) = std::env::var("USM_RUNNER") {
        println!("under the emulator {emulator}: the times say nothing, and a ratio may be off by three\n");
    }
    println!(
        "{:<44} {:>19} {:>19} {:>7} {:>20}  {:>17}",
        "nanoseconds",
        "model least, middle",
        "library least, mid.",
        "least",
        "middle (middle half)",
        "values, ns a value"
    );
    let words: Vec<String> = std::env::args().skip(1).collect();
    let wanted = |row: &Row| words.is_empty() || words.iter().any(|word| row.name.contains(word.as_str()));
    let slower: Vec<&str> =
        rows::rows().into_iter().chain(lists::rows()).filter(wanted).filter_map(|row| timed(row).1).collect();
    let (nightly, behind) = timed(rows::nightly());
    // A floor has no other side to be ahead of.
    timed(rows::floor());
    println!(
        "\nsheets a second, one thread, 1,000 different typical files: model {:.0}, library {:.0}",
        1e9 / nightly.model.middle,
        1e9 / nightly.library.middle
    );
    match slower.into_iter().chain(behind).collect::<Vec<_>>().as_slice() {
        [] => println!("no row is slower than the model"),
        names => println!("slower than the model: {}", names.join("; ")),
    }
}

/// Times a row and prints it; its name comes back if the library is slower.
fn timed(mut row: Row) -> (Measured, Option<&'static str>) {
    let measured = measure(&mut row.model, &mut row.library);
    let Measured { model, library, ratios } = &measured;
    println!(
        "{:<44} {:>9.0} {:>9.0} {:>9.0} {:>9.0} {:>7.2} {:>6.2} ({:.2} to {:.2}){}",
        row.name,
        model.least,
        model.middle,
        library.least,
        library.middle,
        library.least / model.least,
        ratios.middle,
        ratios.low,
        ratios.high,
        work_beside(row.work, library.middle)
    );
    let slower = (ratios.middle > 1.0).then_some(row.name);
    (measured, slower)
}

/// The intrinsic values that a check of a sheet worked out, and the library's nanoseconds for each; a sheet without
/// groups has none.
fn work_beside(work: Option<u64>, nanoseconds: f64) -> String {
    match work {
        None => String::new(),
        Some(0) => format!("  {:>9}", 0),
        Some(values) => format!("  {values:>9} {:>7.2}", nanoseconds / values as f64),
    }
}
