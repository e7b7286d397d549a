//! A seeded search for slower inputs: recipes are changed, and the slowest are kept and changed again. It runs on short
//! instances, of which many can be tried; the slowest recipe is then measured at the full length.

use super::input::Input;
use super::recipe::Recipe;
use reference::kind::INSTANCE;
use reference::random::Random;
use reference::record::{write, LENGTH_OF_INSTANCE};
use std::time::{Duration, Instant};

const KEPT: usize = 12;
/// Every so often a new recipe is tried in place of a changed one.
const NEW: usize = 8;

/// What is timed: the instance of evaluate has about 4,096 bytes, and mark has 64 of about 256.
#[derive(Clone, Copy)]
enum Operation {
    Check,
    Evaluate,
    Mark,
}

impl Operation {
    /// The better of two calls, since what else the machine does only adds time; none where the engine refuses.
    fn microseconds(self, recipe: &Recipe) -> Option<f64> {
        let bytes = if matches!(self, Operation::Evaluate) { 4_096 } else { 256 };
        let input = recipe.input("", bytes)?;
        let run = write(INSTANCE, &input.instance).repeat(64);
        let [first, second] = [self.call(&input, &run)?, self.call(&input, &run)?];
        Some(first.min(second).as_secs_f64() * 1e6)
    }

    fn call(self, input: &Input, run: &[u8]) -> Option<Duration> {
        let Input { query, table, instance, .. } = input;
        let start = Instant::now();
        let done = match self {
            Operation::Check => fql::check(query, table).is_ok(),
            Operation::Evaluate => fql::evaluate(query, table, instance).is_ok(),
            Operation::Mark => fql::mark(query, table, run, &mut [0; 64]).is_ok(),
        };
        done.then(|| start.elapsed())
    }

    /// The slowest recipe found in this time, and how many were tried.
    fn slowest(self, time: Duration, seed: u64) -> (Recipe, usize) {
        let (mut r, start, mut tried) = (Random::new(seed), Instant::now(), 0);
        let (mut known, mut kept) = (Recipe::known(), Vec::new());
        while kept.is_empty() || start.elapsed() < time {
            let recipe = match known.pop() {
                Some(recipe) => recipe,
                None if kept.len() < KEPT || r.chance(NEW) => Recipe::random(&mut r),
                None => changed(&kept, &mut r),
            };
            let Some(microseconds) = self.microseconds(&recipe) else { continue };
            tried += 1;
            kept.push((microseconds, recipe));
            kept.sort_by(|a, b| b.0.total_cmp(&a.0));
            kept.truncate(KEPT);
        }
        (kept.swap_remove(0).1, tried)
    }
}

/// One of those kept, with a change.
fn changed(kept: &[(f64, Recipe)], r: &mut Random) -> Recipe {
    kept[r.below(kept.len())].1.changed(r)
}

/// The slowest inputs found, one for each operation, at their full length.
pub fn inputs(time: Duration, seed: u64) -> Vec<Input> {
    let operations = [("check", Operation::Check), ("evaluate", Operation::Evaluate), ("mark", Operation::Mark)];
    let found = operations.map(|(name, operation)| {
        let (recipe, tried) = operation.slowest(time / 3, seed);
        recipe.input(&format!("found for {name}, of {tried}"), LENGTH_OF_INSTANCE).unwrap()
    });
    found.into()
}
