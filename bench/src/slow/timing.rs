//! The time of a call that may take nanoseconds or seconds: a slow one is timed once.

use std::hint::black_box;
use std::time::{Duration, Instant};

/// A call that takes longer is not repeated.
const SLOW: Duration = Duration::from_millis(50);
const ROUNDS: u32 = 20;
const BATCH: Duration = Duration::from_micros(200);

/// Microseconds of a call; of a fast one those of the best of several batches.
pub fn microseconds(mut call: impl FnMut() -> u64) -> f64 {
    let first = time(&mut call, 1);
    if first >= SLOW {
        return first.as_secs_f64() * 1e6;
    }
    let calls = (BATCH.as_nanos() / first.as_nanos().max(1)).max(1) as u32;
    let rounds = if first * ROUNDS > SLOW { 3 } else { ROUNDS };
    let best = (0..rounds).map(|_| time(&mut call, calls)).min().unwrap();
    best.as_secs_f64() * 1e6 / f64::from(calls)
}

fn time(call: &mut impl FnMut() -> u64, calls: u32) -> Duration {
    let start = Instant::now();
    for _ in 0..calls {
        black_box(call());
    }
    start.elapsed()
}
