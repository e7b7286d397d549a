//! The engine, the second evaluator and the benchmark's tuned engine on one input. A difference ends the test with a
//! line that can be pasted into one. Each test file uses some of it.
#![allow(dead_code)]

pub mod often;
pub mod pairs;

use std::fmt::Debug;

use reference::cases::call;
use reference::{Answer, ConjoinRefusal, FaultText, Refusal, Totals, WatchTotals};

/// Verdict and steps, or number and place.
pub type Found = Result<Answer, Refusal>;

fn refusal(r: fql::Refusal) -> Refusal {
    Refusal { number: r.cause.number(), place: r.place }
}

fn answer(a: fql::Answer) -> Answer {
    Answer { included: a.verdict == fql::Verdict::Included, steps: a.steps }
}

fn totals(t: fql::Totals) -> Totals {
    Totals { included: t.included, excluded: t.excluded, failed: t.failed }
}

/// What the tuned engine says, as the second evaluator would.
mod tuned_engine {
    use reference::{Answer, Refusal, Totals};

    fn refusal(r: tuned::Refusal) -> Refusal {
        Refusal { number: r.number, place: r.place }
    }

    pub fn check(query: &[u8], table: &[u8]) -> Result<(), Refusal> {
        tuned::check(query, table).map_err(refusal)
    }

    pub fn evaluate(query: &[u8], table: &[u8], instance: &[u8]) -> Result<Answer, Refusal> {
        let found = tuned::evaluate(query, table, instance);
        found.map(|a| Answer { included: a.included, steps: a.steps }).map_err(refusal)
    }

    pub fn mark(query: &[u8], table: &[u8], run: &[u8], marks: &mut [u8]) -> Result<Totals, Refusal> {
        let found = tuned::mark(query, table, run, marks);
        found.map(|t| Totals { included: t.included, excluded: t.excluded, failed: t.failed }).map_err(refusal)
    }
}

/// What all three say.
fn same_of_three<T: PartialEq + Debug>(found: [T; 3], shown: impl Fn() -> String) -> T {
    let [engine, second, tuned] = found;
    let agree = engine == second && second == tuned;
    assert!(
        agree,
        "the engine says {engine:?}, the second evaluator {second:?}, the tuned engine {tuned:?}:\n{}",
        shown()
    );
    engine
}

fn same<T: PartialEq + Debug>(found: T, expected: T, shown: impl Fn() -> String) -> T {
    assert!(found == expected, "the engine says {found:?}, the second evaluator {expected:?}:\n{}", shown());
    found
}

/// What all three say of a query on an instance.
pub fn agree(query: &[u8], table: &[u8], instance: &[u8]) -> Found {
    let shown = || call("agree", &[query, table, instance]);
    let checked = fql::check(query, table).map_err(refusal);
    let _ = same_of_three([checked, reference::check(query, table), tuned_engine::check(query, table)], shown);
    let found = fql::evaluate(query, table, instance).map(answer).map_err(refusal);
    let tuned = tuned_engine::evaluate(query, table, instance);
    same_of_three([found, reference::evaluate(query, table, instance), tuned], shown)
}

/// What all three say of a query on a run, and the marks that they leave behind.
pub fn agree_on_marks(query: &[u8], table: &[u8], run: &[u8], marks: &[u8]) -> (Result<Totals, Refusal>, Vec<u8>) {
    let [mut first, mut second, mut third] = [marks, marks, marks].map(<[u8]>::to_vec);
    let found = [
        fql::mark(query, table, run, &mut first).map(totals).map_err(refusal),
        reference::mark(query, table, run, &mut second),
        tuned_engine::mark(query, table, run, &mut third),
    ];
    let mut marks_left = [first, second, third].into_iter();
    let found = found.map(|totals| (totals, marks_left.next().unwrap()));
    same_of_three(found, || call("agree_on_marks", &[query, table, run, marks]))
}

/// The mark for what all three say of an instance by itself, under a query that the check accepts.
pub fn mark_of_evaluate(query: &[u8], table: &[u8], instance: &[u8]) -> u8 {
    match agree(query, table, instance) {
        Ok(answer) if answer.included => fql::INCLUDED,
        Ok(_) => fql::EXCLUDED,
        Err(Refusal { number, .. }) => {
            assert_eq!(number, 31, "{}", call("agree", &[query, table, instance]));
            fql::FAILED
        }
    }
}

/// What both say of a watch over a run, and the marks that both leave behind.
pub fn agree_on_watch(
    query: &[u8],
    table: &[u8],
    run: &[u8],
    window: u64,
    need: u64,
    marks: &[u8],
) -> (Result<WatchTotals, Refusal>, Vec<u8>) {
    let (mut found, mut expected) = (marks.to_vec(), marks.to_vec());
    let totals = fql::watch(query, table, run, window, need, &mut found);
    let totals = totals.map(|t| WatchTotals { ones: t.ones, zeros: t.zeros }).map_err(refusal);
    let expected_totals = reference::watch(query, table, run, window, need, &mut expected);
    let shown = || shown_watch([query, table, run, marks], [window, need]);
    same((totals, found), (expected_totals, expected), shown)
}

/// Window and need, and a line of a test with the query, table, run and marks of a watch.
pub fn shown_watch(slices: [&[u8]; 4], [window, need]: [u64; 2]) -> String {
    format!("{need} of {window}: {}", call("agree_on_watch", &slices))
}

/// The length of the text or the refusal that both give, and the buffer that both leave behind.
pub fn agree_on_conjoin(
    first: &[u8],
    second: &[u8],
    table: &[u8],
    buffer: &[u8],
) -> (Result<usize, ConjoinRefusal>, Vec<u8>) {
    let (mut found, mut expected) = (buffer.to_vec(), buffer.to_vec());
    let length = fql::conjoin(first, second, table, &mut found).map_err(conjoin_refusal);
    let expected_length = reference::conjoin(first, second, table, &mut expected);
    let shown = || call("agree_on_conjoin", &[first, second, table, buffer]);
    same((length, found), (expected_length, expected), shown)
}

fn conjoin_refusal(r: fql::ConjoinRefusal) -> ConjoinRefusal {
    let query = match r.at_fault {
        fql::AtFault::Neither => 0,
        fql::AtFault::First => 1,
        fql::AtFault::Second => 2,
    };
    ConjoinRefusal { query, refusal: refusal(r.refusal) }
}

/// The text at a fault as both show it.
pub fn agree_on_fault_text<'a>(query: &'a [u8], table: &'a [u8], number: u64, place: u64) -> FaultText<'a> {
    let found = match fql::fault_text(query, table, number, place) {
        fql::FaultText::Nothing => FaultText::Nothing,
        fql::FaultText::Query(part) => FaultText::Query(part),
        fql::FaultText::Table(part) => FaultText::Table(part),
    };
    let shown = || format!("{number} at {place}: {}", call("agree_on_fault_text", &[query, table]));
    same(found, reference::fault_text(query, table, number, place), shown)
}
