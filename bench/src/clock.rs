//! Timing side by side. In each round every contestant runs one batch of calls after the other; its best round counts,
//! since whatever else the machine does only adds time. Rounds are many and short, so that each contestant has some in
//! which nothing else ran.

use std::hint::black_box;
use std::time::{Duration, Instant};

const ROUNDS: usize = 60;
const BATCH: Duration = Duration::from_millis(1);

pub type Call<'a> = Box<dyn FnMut() -> u64 + 'a>;

pub struct Contestant<'a> {
    /// What has to be done before each call, outside the clock.
    before: Option<Call<'a>>,
    call: Call<'a>,
}

impl<'a> Contestant<'a> {
    pub fn new(call: impl FnMut() -> u64 + 'a) -> Self {
        Contestant { before: None, call: Box::new(call) }
    }

    pub fn with_before(before: impl FnMut() -> u64 + 'a, call: impl FnMut() -> u64 + 'a) -> Self {
        Contestant { before: Some(Box::new(before)), call: Box::new(call) }
    }

    /// Nanoseconds for each of so many calls.
    fn time(&mut self, calls: u32) -> f64 {
        if let Some(before) = &mut self.before {
            black_box(before());
        }
        let start = Instant::now();
        for _ in 0..calls {
            black_box((self.call)());
        }
        start.elapsed().as_nanos() as f64 / f64::from(calls)
    }

    fn calls_in_a_batch(&mut self) -> u32 {
        let mut calls = 1;
        loop {
            let all = self.time(calls) * f64::from(calls);
            if self.before.is_some() || all >= BATCH.as_nanos() as f64 || calls >= 1 << 24 {
                return calls;
            }
            calls *= 2;
        }
    }
}

/// Nanoseconds for each call of each contestant.
pub fn compare(contestants: &mut [Contestant]) -> Vec<f64> {
    let batches: Vec<u32> = contestants.iter_mut().map(Contestant::calls_in_a_batch).collect();
    let mut best = vec![f64::INFINITY; contestants.len()];
    for _ in 0..ROUNDS {
        for ((contestant, &calls), best) in contestants.iter_mut().zip(&batches).zip(&mut best) {
            *best = best.min(contestant.time(calls));
        }
    }
    best
}

pub fn measure<'a>(call: impl FnMut() -> u64 + 'a) -> f64 {
    compare(&mut [Contestant::new(call)])[0]
}
