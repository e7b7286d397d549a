//! A watch on the engine and on the second evaluator: runs with hand-written marks and totals, and random ones.

mod common;

use std::collections::BTreeMap;

use common::often::assert_often;
use common::{agree_on_marks, agree_on_watch, shown_watch};
use reference::cases::run::RunCase;
use reference::cases::watch::{of_one_flag, random, WatchCase};
use reference::examples::watches;
use reference::kind::INSTANCE;
use reference::random::{for_each_seed, Random};
use reference::record::write;
use reference::watch::included_of_the_last;
use reference::{Refusal, Totals, WatchTotals};

const CASES: usize = 5_000;
const LONGEST_WINDOW: u64 = 64;

type Watched = (Result<WatchTotals, Refusal>, Vec<u8>);

/// The case with these marks before the call.
fn watch(case: &WatchCase, marks: &[u8]) -> Watched {
    let RunCase { query, table, run, .. } = &case.call;
    agree_on_watch(query, table, run, case.window, case.need, marks)
}

/// What mark says of the same run, and the marks that it leaves.
fn plain(call: &RunCase) -> (Result<Totals, Refusal>, Vec<u8>) {
    agree_on_marks(&call.query, &call.table, &call.run, &call.marks)
}

fn shown(case: &WatchCase) -> String {
    let RunCase { query, table, run, marks } = &case.call;
    shown_watch([query, table, run, marks], [case.window, case.need])
}

#[test]
fn of_the_examples() {
    for e in watches::examples() {
        let found = agree_on_watch(&e.query, &e.table, &e.run, e.window, e.need, &e.marks);
        let shown = || shown_watch([&e.query, &e.table, &e.run, &e.marks], [e.window, e.need]);
        assert_eq!(found, (e.expected, e.left.clone()), "{}", shown());
    }
}

/// Old marks have no part in the result.
#[test]
fn of_any_old_contents() {
    for e in watches::examples() {
        let watch = |marks: &[u8]| agree_on_watch(&e.query, &e.table, &e.run, e.window, e.need, marks);
        let Ok(totals) = e.expected else { continue };
        let instances = (totals.ones + totals.zeros) as usize;
        for byte in [0, 1, 255] {
            let (found, marks) = watch(&vec![byte; e.marks.len()]);
            assert_eq!((found, &marks[..instances]), (e.expected, &e.left[..instances]));
        }
    }
}

/// What came up, so that the test can't pass by trying nothing.
#[derive(Debug, Default)]
struct Seen {
    ones: usize,
    zeros: usize,
    /// An instance that fails is marked 1.
    ones_of_failed: usize,
    /// An included instance is marked 0, an excluded one 1.
    zeros_of_included: usize,
    ones_of_excluded: usize,
    /// Of the last at an instance exactly the need are included, or one fewer, and the need is more than half of a
    /// window over 32: by chance alone such a count seldom comes up.
    exactly_the_need: usize,
    one_fewer: usize,
    /// The window has more instances than the run.
    longer_windows: usize,
    /// The run has more than the longest window.
    long_runs: usize,
    /// The run has more than the window, and one fails.
    passed_with_failed: usize,
    marks_beyond: usize,
    /// 42 where mark isn't refused, and where it is with 2.
    refused_of_good_calls: usize,
    refused_of_bad_tables: usize,
    /// By number.
    refused: BTreeMap<u64, usize>,
}

impl Seen {
    fn add_marks(&mut self, case: &WatchCase, marks: &[u8], plain: &[u8]) {
        let of = |mark: u8, of: u8| marks.iter().zip(plain).filter(|pair| *pair == (&mark, &of)).count();
        self.ones += marks.iter().filter(|mark| **mark == 1).count();
        self.zeros += marks.iter().filter(|mark| **mark == 0).count();
        self.ones_of_failed += of(1, fql::FAILED);
        self.zeros_of_included += of(0, fql::INCLUDED);
        self.ones_of_excluded += of(1, fql::EXCLUDED);
        if case.window > 32 && case.need > case.window / 2 {
            let included = |number: usize| included_of_the_last(case.window, &plain[..number]);
            let with = |count: u64| (1..=plain.len()).filter(|number| included(*number) == count).count();
            self.exactly_the_need += with(case.need);
            self.one_fewer += with(case.need - 1);
        }
        let instances = marks.len() as u64;
        self.longer_windows += usize::from(case.window > instances);
        self.long_runs += usize::from(instances > LONGEST_WINDOW);
        self.passed_with_failed += usize::from(instances > case.window && plain.contains(&fql::FAILED));
        self.marks_beyond += usize::from(case.call.marks.len() > marks.len());
    }

    fn add_refusal(&mut self, case: &WatchCase, refusal: Refusal) {
        *self.refused.entry(refusal.number).or_default() += 1;
        if refusal.number == 42 {
            let of_mark = plain(&case.call).0;
            self.refused_of_good_calls += usize::from(of_mark.is_ok());
            self.refused_of_bad_tables += usize::from(of_mark.is_err_and(|refusal| refusal.number == 2));
        }
    }

    fn assert_often(&self) {
        println!("{self:?}");
        assert_often(&[
            ("ones", self.ones, 60_000),
            ("zeros", self.zeros, 60_000),
            ("a failed instance marked 1", self.ones_of_failed, 8_000),
            ("an included instance marked 0", self.zeros_of_included, 15_000),
            ("an excluded instance marked 1", self.ones_of_excluded, 15_000),
            ("exactly the need included", self.exactly_the_need, 1_200),
            ("one fewer included", self.one_fewer, 600),
            ("windows longer than the run", self.longer_windows, 300),
            ("runs longer than the longest window", self.long_runs, 1_200),
            ("runs longer than the window, with failed instances", self.passed_with_failed, 1_500),
            ("marks beyond", self.marks_beyond, 1_000),
            ("42 of a call that is good otherwise", self.refused_of_good_calls, 300),
            ("42 of a call with a bad table", self.refused_of_bad_tables, 15),
        ]);
        for number in [2, 11, 40, 41] {
            let count = self.refused.get(&number).copied().unwrap_or(0);
            assert_often(&[(&format!("refused {number}"), count, 60)]);
        }
    }
}

/// Marks of a call that isn't refused: one for each instance, 0 or 1, as many as the totals say, whatever stood there.
fn hold(case: &WatchCase, totals: WatchTotals, marks: &[u8]) -> usize {
    let instances = reference::mark::instances(&case.call.run).unwrap().len();
    assert_eq!(totals.ones + totals.zeros, instances as u64, "{}", shown(case));
    let (own, beyond) = marks.split_at(instances);
    assert!(own.iter().all(|mark| *mark <= 1), "{}", shown(case));
    assert_eq!(own.iter().map(|mark| u64::from(*mark)).sum::<u64>(), totals.ones, "{}", shown(case));
    assert_eq!(beyond, &case.call.marks[instances..], "{}", shown(case));
    let inverted: Vec<u8> = case.call.marks.iter().map(|mark| !mark).collect();
    let (again, others) = watch(case, &inverted);
    assert_eq!((again, &others[..instances]), (Ok(totals), own), "{}", shown(case));
    instances
}

/// 42 exactly if window or need is out of its range, and otherwise what mark is refused with.
fn hold_refusal(case: &WatchCase, refusal: Refusal, marks: &[u8]) {
    assert_eq!(marks, case.call.marks, "{}", shown(case));
    let in_range = (1..=LONGEST_WINDOW).contains(&case.window) && (1..=case.window).contains(&case.need);
    match in_range {
        false => assert_eq!(refusal, Refusal { number: 42, place: 0 }, "{}", shown(case)),
        true => assert_eq!(Some(refusal), plain(&case.call).0.err(), "{}", shown(case)),
    }
}

fn run(r: &mut Random) {
    let mut seen = Seen::default();
    for _ in 0..CASES {
        let case = random(r);
        match watch(&case, &case.call.marks) {
            (Ok(totals), marks) => {
                let instances = hold(&case, totals, &marks);
                seen.add_marks(&case, &marks[..instances], &plain(&case.call).1[..instances]);
            }
            (Err(refusal), marks) => {
                hold_refusal(&case, refusal, &marks);
                seen.add_refusal(&case, refusal);
            }
        }
    }
    seen.assert_often();
}

#[test]
fn of_random_runs() {
    for_each_seed(run);
}

/// A run that is longer than two of the longest windows. In the first all instances are included, so that each count
/// comes up before its window has passed; in the second some are, some aren't, and some fail.
fn long_run(r: &mut Random) -> RunCase {
    const LONGEST: usize = LONGEST_WINDOW as usize;
    loop {
        let call = random(r).call;
        let (totals, marks) = plain(&call);
        let Totals { included, excluded, failed } = totals.unwrap_or_default();
        if included + excluded + failed > 2 * LONGEST_WINDOW {
            let (first, second) = (&marks[..LONGEST], &marks[LONGEST..2 * LONGEST]);
            let of = |window: &[u8], byte: u8| window.iter().filter(|mark| **mark == byte).count();
            let mixed = [fql::INCLUDED, fql::EXCLUDED, fql::FAILED].iter().all(|byte| of(second, *byte) > 4);
            if of(first, fql::INCLUDED) == LONGEST && mixed {
                return call;
            }
        }
    }
}

/// Each window with each of its needs, and the numbers beside both.
#[test]
fn every_window_and_need() {
    for_each_seed(|r| {
        let call = long_run(r);
        for window in 0..=LONGEST_WINDOW + 1 {
            for need in 0..=window + 1 {
                let case = WatchCase { call: call.clone(), window, need };
                match watch(&case, &call.marks) {
                    (Ok(totals), marks) => assert!(hold(&case, totals, &marks) > 2 * LONGEST_WINDOW as usize),
                    (Err(refusal), marks) => hold_refusal(&case, refusal, &marks),
                }
            }
        }
    });
}

/// More instances than two bytes can count, and marks beyond that no watch writes.
fn very_long_run(r: &mut Random) {
    const INSTANCES: usize = 80_000;
    const OF_TWO_BYTES: usize = 1 << 16;
    let RunCase { query, table, run, mut marks } = of_one_flag(r, INSTANCES, 3);
    marks[INSTANCES..].fill(7);
    for [window, need] in [[1, 1], [3, 2], [64, 20], [64, 64]] {
        let (mut found, mut expected) = (marks.clone(), marks.clone());
        let totals = fql::watch(&query, &table, &run, window, need, &mut found).unwrap();
        let expected_totals = reference::watch(&query, &table, &run, window, need, &mut expected).unwrap();
        // The run is too long to be shown.
        let differs = found.iter().zip(&expected).position(|(found, expected)| found != expected);
        assert_eq!(differs, None, "the first mark that differs at {need} of {window}");
        assert_eq!((totals.ones, totals.zeros), (expected_totals.ones, expected_totals.zeros), "{need} of {window}");
        assert_eq!(found[INSTANCES..], marks[INSTANCES..], "{need} of {window}");
        let late = |byte: u8| found[OF_TWO_BYTES..INSTANCES].iter().filter(|mark| **mark == byte).count();
        println!("{need} of {window}: {} late ones, {} late zeros", late(1), late(0));
        assert_often(&[("late ones", late(1), 300), ("late zeros", late(0), 300)]);
    }
}

#[test]
fn of_a_very_long_run() {
    for_each_seed(very_long_run);
}

/// With a window of 1 the marks are the plain ones, 0 in place of 255.
fn window_of_one(r: &mut Random) {
    let mut failed = 0;
    for _ in 0..CASES / 8 {
        let case = WatchCase { window: 1, need: 1, ..random(r) };
        let (found, marks) = watch(&case, &case.call.marks);
        let (totals, mut expected) = plain(&case.call);
        if let Ok(totals) = totals {
            let instances = (totals.included + totals.excluded + totals.failed) as usize;
            expected[..instances].iter_mut().filter(|mark| **mark == fql::FAILED).for_each(|mark| *mark = 0);
            failed += totals.failed;
        }
        let totals = totals.map(|t| WatchTotals { ones: t.included, zeros: t.excluded + t.failed });
        assert_eq!((found, marks), (totals, expected), "{}", shown(&case));
    }
    println!("{failed} failed");
    assert_often(&[("failed", failed as usize, 1_000)]);
}

#[test]
fn a_window_of_one_gives_the_plain_marks() {
    for_each_seed(window_of_one);
}

/// A run in two calls, the second with the last instances of the first in front, as many as the window has but one: of
/// the others each has the mark that it has in one call. Fewer in front wouldn't do.
fn two_batches(r: &mut Random) {
    let [mut cuts, mut differences] = [0; 2];
    for _ in 0..CASES / 8 {
        let case = random(r);
        let (Ok(_), whole) = watch(&case, &case.call.marks) else { continue };
        let bodies = reference::mark::instances(&case.call.run).unwrap();
        let cut = r.below(bodies.len() + 1);
        let from = |start: usize| {
            let run = bodies[start..].iter().flat_map(|body| write(INSTANCE, body)).collect();
            let call = RunCase { run, marks: vec![7; bodies.len() - start], ..case.call.clone() };
            watch(&WatchCase { call, ..case.clone() }, &vec![7; bodies.len() - start]).1[cut - start..].to_vec()
        };
        let again = (case.window as usize - 1).min(cut);
        assert_eq!(from(cut - again), whole[cut..bodies.len()], "cut at {cut}: {}", shown(&case));
        cuts += usize::from(again > 0 && cut < bodies.len());
        differences += usize::from(again > 0 && from(cut - again + 1) != whole[cut..bodies.len()]);
    }
    println!("{cuts} cuts, {differences} differ with one fewer");
    assert_often(&[("cuts", cuts, 150), ("cuts at which one fewer differs", differences, 10)]);
}

#[test]
fn of_a_run_in_two_batches() {
    for_each_seed(two_batches);
}
