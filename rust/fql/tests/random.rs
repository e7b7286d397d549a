//! Random, damaged and boundary inputs, on the engine, the second evaluator and the tuned engine: verdict, steps, number
//! and place.

mod common;

use common::agree;
use reference::bound;
use reference::cases::spread::Spread;
use reference::cases::{call, random, Case};
use reference::random::{for_each_seed, Random};

/// Of each of the two streams, which two cores share.
const CASES: usize = 160_000;
/// How often each refusal, verdict and form of comparison has to come up in a stream.
const LEAST: usize = 250;

fn try_case(case: &Case) -> Result<reference::Answer, reference::Refusal> {
    let found = agree(&case.query, &case.table, &case.instance);
    let shown = || call("agree", &[&case.query, &case.table, &case.instance]);
    assert!(case.is_intended(found), "{}: all say {found:?} in place of {:?}:\n{}", case.sort, case.intended, shown());
    if let Ok(answer) = found {
        let most = bound(&case.query, &case.table, &case.instance).unwrap();
        assert!(answer.steps <= most, "{} steps, more than the bound {most}:\n{}", answer.steps, shown());
    }
    found
}

fn run(r: &mut Random) {
    let mut spread = Spread::default();
    for _ in 0..CASES {
        let case = random(r);
        let found = try_case(&case);
        spread.add(&case, found);
    }
    spread.print();
    spread.assert_at_least(LEAST);
}

#[test]
fn random_cases() {
    for_each_seed(run);
}

#[test]
fn further_random_cases() {
    for_each_seed(|r| run(&mut Random::new(r.word())));
}
