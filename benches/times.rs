//! Times of several sides that take turns.

use std::hint::black_box;
use std::time::Instant;

/// Nanoseconds that the work takes.
pub fn timed<T>(work: impl FnOnce() -> T) -> f64 {
    let start = Instant::now();
    black_box(work());
    start.elapsed().as_secs_f64() * 1e9
}

pub fn minimum_and_median(mut times: Vec<f64>) -> [f64; 2] {
    times.sort_by(f64::total_cmp);
    [times[0], times[times.len() / 2]]
}

/// The sides in turn, each round from another one on, so that none is always first. `work` gives a side's
/// time for a round.
pub fn rounds<const SIDES: usize>(
    rounds: usize,
    mut work: impl FnMut(usize) -> f64,
) -> [[f64; 2]; SIDES] {
    let mut times = [(); SIDES].map(|()| Vec::new());
    for round in 0..rounds {
        for turn in 0..SIDES {
            let side = (round + turn) % SIDES;
            times[side].push(work(side));
        }
    }
    times.map(minimum_and_median)
}

/// "minimum / median", as the tables have it.
pub fn both([minimum, median]: [f64; 2]) -> String {
    format!("{minimum:.2} / {median:.2}")
}

/// One side's minimum and median by another's.
pub fn ratio(side: [f64; 2], other: [f64; 2]) -> String {
    both([side[0] / other[0], side[1] / other[1]])
}
