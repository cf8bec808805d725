//! Times of the same calls: the least of many short runs, ours and theirs by turns, so that other work on the
//! machine disturbs both alike.
use crate::case::{Call, Case};
use std::time::{Duration, Instant};

/// A run is long enough for the clock and short enough to fall between disturbances.
const RUN: Duration = Duration::from_micros(200);
const RUNS: usize = 200;

/// Nanoseconds of one call: ours, theirs.
pub fn least(case: &mut Case) -> [f64; 2] {
    let repeats = [repeats(&mut case.ours), repeats(&mut case.theirs)];
    let mut least = [f64::INFINITY; 2];
    for _ in 0..RUNS {
        for (i, call) in [&mut case.ours, &mut case.theirs].into_iter().enumerate() {
            least[i] = least[i].min(run(call, repeats[i]).as_nanos() as f64 / repeats[i] as f64);
        }
    }
    least
}

/// How many calls make a run.
fn repeats(call: &mut Call) -> u32 {
    let mut repeats = 1;
    while repeats < 1 << 20 && run(call, repeats) < RUN {
        repeats *= 2;
    }
    repeats
}

fn run(call: &mut Call, repeats: u32) -> Duration {
    let start = Instant::now();
    for _ in 0..repeats {
        call();
    }
    start.elapsed()
}
