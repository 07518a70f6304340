//! Two pieces of work in turn, so that what disturbs the machine disturbs both.

use std::time::{Duration, Instant};

/// A batch is about this long.
const BATCH: Duration = Duration::from_millis(2);

/// Nanoseconds for one run of each: the least of that many batches.
pub fn in_turn(batches: usize, mut first: impl FnMut(), mut second: impl FnMut()) -> (f64, f64) {
    let (runs, other_runs) = (runs(&mut first), runs(&mut second));
    let mut least = (f64::INFINITY, f64::INFINITY);
    for _ in 0..batches.max(1) {
        least.0 = least.0.min(batch(runs, &mut first));
        least.1 = least.1.min(batch(other_runs, &mut second));
    }
    least
}

/// How many runs a batch has.
fn runs(work: &mut impl FnMut()) -> u32 {
    let mut runs = 1;
    loop {
        let time = Duration::from_nanos((batch(runs, work) * f64::from(runs)) as u64);
        if time >= BATCH {
            return runs;
        }
        runs *= 2;
    }
}

/// Nanoseconds for one run, over that many.
fn batch(runs: u32, work: &mut impl FnMut()) -> f64 {
    let begun = Instant::now();
    for _ in 0..runs {
        work();
    }
    begun.elapsed().as_nanos() as f64 / f64::from(runs)
}
