//! How long something takes.

use std::time::{Duration, Instant};

/// Each measurement goes on for this long.
const SPAN: Duration = Duration::from_millis(100);

/// The least time in seconds that `work` took on what `prepare` made, which is not counted.
pub fn best<S, R>(mut prepare: impl FnMut() -> S, mut work: impl FnMut(&mut S) -> R) -> f64 {
    let start = Instant::now();
    let mut best = Duration::MAX;
    let mut runs = 0;
    while runs < 2 || start.elapsed() < SPAN {
        let mut state = prepare();
        let begun = Instant::now();
        std::hint::black_box(work(std::hint::black_box(&mut state)));
        best = best.min(begun.elapsed());
        runs += 1;
    }
    best.as_secs_f64()
}
