//! How long two calls take that are timed in turn.

use std::sync::atomic::{AtomicU64, Ordering};
use std::time::{Duration, Instant};

const BATCHES: usize = 21;
const BATCH_TIME: Duration = Duration::from_millis(4);

/// Of some numbers the least, the middle one, and where their middle half begins and ends.
pub struct Spread {
    pub least: f64,
    pub low: f64,
    pub middle: f64,
    pub high: f64,
}

/// Nanoseconds per call of each side, and the library's time over the model's, batch by batch.
pub struct Measured {
    pub model: Spread,
    pub library: Spread,
    pub ratios: Spread,
}

pub fn measure(model: &mut dyn FnMut() -> u64, library: &mut dyn FnMut() -> u64) -> Measured {
    let calls_of_model = calls_in_a_batch(model);
    let calls_of_library = calls_in_a_batch(library);
    let (mut of_model, mut of_library) = (Vec::new(), Vec::new());
    for _ in 0..BATCHES {
        of_model.push(batch(model, calls_of_model));
        of_library.push(batch(library, calls_of_library));
    }
    let ratios = of_library.iter().zip(&of_model).map(|(library, model)| library / model).collect();
    Measured { ratios: spread(ratios), model: spread(of_model), library: spread(of_library) }
}

/// How many calls take about the time of a batch.
fn calls_in_a_batch(call: &mut dyn FnMut() -> u64) -> u32 {
    let mut calls = 1;
    loop {
        let per_call = batch(call, calls);
        let wanted = BATCH_TIME.as_nanos() as f64 / per_call.max(1.0);
        if wanted <= 2.0 * f64::from(calls) || calls >= 1 << 24 {
            return (wanted as u32).max(1);
        }
        calls *= 4;
    }
}

fn batch(call: &mut dyn FnMut() -> u64, calls: u32) -> f64 {
    let start = Instant::now();
    let folded = (0..calls).fold(0, |folded: u64, _| folded.rotate_left(1) ^ call());
    let took = start.elapsed();
    keep(folded);
    took.as_nanos() as f64 / f64::from(calls)
}

/// Makes use of the results of a batch, so that no call is left out. (`std::hint::black_box` asks for a newer
/// Rust than this package does.)
fn keep(folded: u64) {
    static RESULTS: AtomicU64 = AtomicU64::new(0);
    RESULTS.fetch_xor(folded, Ordering::Relaxed);
}

fn spread(mut numbers: Vec<f64>) -> Spread {
    numbers.sort_by(f64::total_cmp);
    let at = |quarters| numbers[(numbers.len() - 1) * quarters / 4];
    Spread { least: at(0), low: at(1), middle: at(2), high: at(3) }
}
