//! Mark on the engine, the second evaluator and the tuned engine: runs with hand-written marks and totals, and random
//! ones.

mod common;

use std::collections::BTreeMap;

use common::{agree_on_marks, mark_of_evaluate};
use reference::cases::call;
use reference::cases::run::{random, RunCase};
use reference::examples::runs;
use reference::random::{for_each_seed, Random};
use reference::Totals;

const CASES: usize = 12_000;
/// How often each total and refusal has to come up.
const LEAST: usize = 100;

#[test]
fn of_the_examples() {
    for e in runs::examples() {
        let found = agree_on_marks(&e.query, &e.table, &e.run, &e.marks);
        let shown = || call("agree_on_marks", &[&e.query, &e.table, &e.run, &e.marks]);
        assert_eq!(found, (e.expected, e.left.clone()), "{}", shown());
    }
}

/// The byte that mark writes for an instance is the one for what evaluate says of it.
fn hold_to_evaluate(case: &RunCase, totals: Totals, marks: &[u8]) {
    let instances = reference::mark::instances(&case.run).unwrap();
    assert_eq!(totals.included + totals.excluded + totals.failed, instances.len() as u64);
    for (instance, mark) in instances.iter().zip(marks) {
        let expected = mark_of_evaluate(&case.query, &case.table, instance);
        assert_eq!(*mark, expected, "{}", call("agree", &[&case.query, &case.table, instance]));
    }
    assert_eq!(marks[instances.len()..], case.marks[instances.len()..]);
}

fn run(r: &mut Random) {
    let mut counts: BTreeMap<String, usize> = BTreeMap::new();
    let mut count = |what: String, n: u64| *counts.entry(what).or_default() += n as usize;
    for _ in 0..CASES {
        let case = random(r);
        let (found, marks) = agree_on_marks(&case.query, &case.table, &case.run, &case.marks);
        match found {
            Ok(totals) => {
                hold_to_evaluate(&case, totals, &marks);
                count("included".to_owned(), totals.included);
                count("excluded".to_owned(), totals.excluded);
                count("failed".to_owned(), totals.failed);
                count(
                    "marks beyond".to_owned(),
                    u64::from(marks.len() as u64 > totals.included + totals.excluded + totals.failed),
                );
            }
            Err(refusal) => {
                assert_eq!(marks, case.marks);
                count(format!("refused {}", refusal.number), 1);
            }
        }
    }
    println!("{counts:?}");
    for what in
        ["included", "excluded", "failed", "marks beyond", "refused 2", "refused 11", "refused 40", "refused 41"]
    {
        let n = counts.get(what).copied().unwrap_or(0);
        assert!(n >= LEAST, "only {n} times {what}");
    }
}

#[test]
fn of_random_runs() {
    for_each_seed(run);
}

/// Old marks have no part in the result.
#[test]
fn of_any_old_contents() {
    for e in runs::examples() {
        for byte in [0, 1, 255] {
            let marks = vec![byte; e.marks.len()];
            assert_eq!(agree_on_marks(&e.query, &e.table, &e.run, &marks).0, e.expected);
        }
    }
}
