//! A row of the benchmark: one call with one input, by the model and by the library.

use usm::Refusal;
use usm_kit::both::{Calls, LIBRARY, MODEL};

pub struct Row {
    pub name: &'static str,
    /// How many intrinsic values one call works out, where the call answers with that.
    pub work: Option<u64>,
    pub model: Box<dyn FnMut() -> u64>,
    pub library: Box<dyn FnMut() -> u64>,
}

/// A row whose two sides answer alike; that is seen to before anything is timed.
pub fn row<Timed: FnMut() -> u64 + 'static>(name: &'static str, timed: impl Fn(Calls) -> Timed) -> Row {
    let (mut model, mut library) = (timed(MODEL), timed(LIBRARY));
    assert_eq!(model(), library(), "{name}: model and library differ");
    Row { name, work: None, model: Box::new(model), library: Box::new(library) }
}

/// Folds an answer into a number, so that the two can be held against each other.
pub fn folded<T>(answer: Result<T, Refusal>, of_success: impl Fn(T) -> u64) -> u64 {
    match answer {
        Ok(success) => of_success(success),
        Err(refusal) => refusal.number << 56 | refusal.table << 48 | refusal.place,
    }
}
