//! Runs of wide instances, in each of which a property starts elsewhere: an instance is marked by its own records, and
//! by none of an instance before it, whether that conforms or wherever it is at fault.

use fql::record::{write, INSTANCE};
use reference::cases::call;
use reference::cases::wide::{run, Fault, WideRun};
use reference::named::named_properties;
use reference::random::{for_each_seed, Random};
use reference::record::read;

use crate::common::{agree_on_marks, agree_on_watch, mark_of_evaluate};
use crate::seen::Seen;

fn sort_of(fault: Option<Fault>) -> &'static str {
    match fault {
        None => "conforming",
        Some(Fault::First) => "at fault in the first record",
        Some(Fault::Middle) => "at fault in the middle",
        Some(Fault::Last) => "at fault in the last record",
        Some(Fault::Behind) => "at fault behind the last record",
        Some(Fault::CutShort) => "cut short",
        Some(Fault::TooLong) => "with too long a record",
        Some(Fault::Empty) => "empty",
    }
}

/// Whether a property that the query names starts elsewhere in one instance than in another that has a record for it.
fn start_elsewhere(run: &WideRun, [one, another]: [&[u8]; 2]) -> bool {
    let [one, another] = [one, another].map(|instance| read(instance).0);
    let differ = |&n: &usize| another.get(n).is_some_and(|record| record.start != one[n].start);
    named_properties(&run.query, &run.table).iter().any(differ)
}

fn add(run: &WideRun, marks: &[u8], seen: &mut Seen) {
    run.faults.iter().for_each(|fault| seen.add(sort_of(*fault)));
    seen.add_many("included", marks.iter().filter(|mark| **mark == fql::INCLUDED).count());
    seen.add_many("excluded", marks.iter().filter(|mark| **mark == fql::EXCLUDED).count());
    for n in (1..marks.len()).filter(|n| run.faults[*n].is_none()) {
        if start_elsewhere(run, [&run.instances[n], &run.instances[n - 1]]) {
            seen.add("named elsewhere than in the instance before");
        }
    }
    let between = |faults: &&[Option<Fault>]| matches!(faults, [None, Some(_), None]);
    seen.add_many("a fault between two that conform", run.faults.windows(3).filter(between).count());
}

fn bytes_of(run: &WideRun) -> Vec<u8> {
    run.instances.iter().flat_map(|instance| write(INSTANCE, instance)).collect()
}

/// The marks, which are those of evaluate on each instance by itself.
fn marks_of(run: &WideRun) -> Vec<u8> {
    let (bytes, before) = (bytes_of(run), vec![7; run.instances.len()]);
    let (_, marks) = agree_on_marks(&run.query, &run.table, &bytes, &before);
    let shown = || call("agree_on_marks", &[&run.query, &run.table, &bytes, &before]);
    let alone = |instance: &Vec<u8>| mark_of_evaluate(&run.query, &run.table, instance);
    assert_eq!(marks, run.instances.iter().map(alone).collect::<Vec<_>>(), "{}", shown());
    let conform: Vec<bool> = marks.iter().map(|mark| *mark != fql::FAILED).collect();
    assert_eq!(conform, run.faults.iter().map(Option::is_none).collect::<Vec<_>>(), "{}", shown());
    marks
}

/// Holds a watch over the run to the second evaluator; whether it marks some instances with 1 and some with 0.
fn hold_to_watch(r: &mut Random, run: &WideRun) -> bool {
    let window = 1 + r.below(4);
    let (range, before) = ([window, 1 + r.below(window)].map(|n| n as u64), vec![7; run.instances.len()]);
    let (_, marks) = agree_on_watch(&run.query, &run.table, &bytes_of(run), range[0], range[1], &before);
    marks.contains(&0) && marks.contains(&1)
}

fn runs(r: &mut Random) {
    let mut seen = Seen::default();
    for _ in 0..2_000 {
        let run = run(r);
        add(&run, &marks_of(&run), &mut seen);
        if r.chance(4) && hold_to_watch(r, &run) {
            seen.add("watched, with ones and zeros");
        }
    }
    seen.assert_at_least(&[
        ("conforming", 7_000),
        ("included", 4_000),
        ("excluded", 2_800),
        ("at fault in the first record", 450),
        ("at fault in the middle", 450),
        ("at fault in the last record", 450),
        ("at fault behind the last record", 450),
        ("cut short", 450),
        ("with too long a record", 450),
        ("empty", 450),
        ("named elsewhere than in the instance before", 5_500),
        ("a fault between two that conform", 1_100),
        ("watched, with ones and zeros", 150),
    ]);
}

#[test]
fn random_runs() {
    for_each_seed(runs);
}
