//! A watch beside mark, which finds the same plain marks: what the window adds, and that its length doesn't count.

use crate::clock::{compare, Contestant};
use crate::data::{filters, Setting};
use crate::growth::{print_head, print_row};

const WINDOW: u64 = 64;
const NEED: u64 = 32;

pub fn run(setting: &Setting) {
    beside_mark(setting);
    over_windows(setting);
}

/// Marks and totals are those of the second evaluator.
fn assert_same(query: &[u8], setting: &Setting, [window, need]: [u64; 2]) {
    let (mut engine, mut second) = (setting.marks(), setting.marks());
    let totals = fql::watch(query, &setting.table, &setting.run, window, need, &mut engine).unwrap();
    let expected = reference::watch(query, &setting.table, &setting.run, window, need, &mut second).unwrap();
    assert_eq!((totals.ones, totals.zeros), (expected.ones, expected.zeros), "{need} of {window}");
    assert_eq!(engine, second, "{need} of {window}");
}

/// A call of watch on marks of its own.
fn call<'a>(query: &'a [u8], setting: &'a Setting, [window, need]: [u64; 2]) -> Contestant<'a> {
    let mut marks = setting.marks();
    Contestant::new(move || {
        marks.fill(0);
        fql::watch(query, &setting.table, &setting.run, window, need, &mut marks).unwrap().ones
    })
}

fn beside_mark(setting: &Setting) {
    let count = setting.instances;
    let filters = filters();
    for filter in &filters {
        assert_same(filter.fql.as_bytes(), setting, [WINDOW, NEED]);
    }
    println!("\nwatch, {NEED} of {WINDOW}, beside mark, {count} small instances: nanoseconds for each instance");
    println!("{:34}{:>12}{:>12}{:>8}", "filter", "mark", "watch", "ratio");
    for filter in &filters {
        let query = filter.fql.as_bytes();
        let mut marks = setting.marks();
        let mark = Contestant::new(|| {
            marks.fill(0);
            fql::mark(query, &setting.table, &setting.run, &mut marks).unwrap().included
        });
        let times = compare(&mut [mark, call(query, setting, [WINDOW, NEED])]);
        let each = [times[0] / count as f64, times[1] / count as f64];
        println!("{:34}{:>12.0}{:>12.0}{:>8.2}", filter.kind, each[0], each[1], each[1] / each[0]);
    }
}

/// All windows take turns, so that a slower moment of the machine is no window's.
fn over_windows(setting: &Setting) {
    let count = setting.instances;
    let query = b"Temp > 0";
    let ranges = [1, 2, 4, 8, 16, 32, 64].map(|window: u64| [window, window.div_ceil(2)]);
    for range in ranges {
        assert_same(query, setting, range);
    }
    let times = compare(&mut ranges.map(|range| call(query, setting, range)));
    println!("\ngrowth of watch with the window, {count} instances: nanoseconds for a call, and for each instance");
    print_head("an instance");
    for ([window, _], time) in ranges.into_iter().zip(times) {
        print_row("instances of the window", window as usize, time, count);
    }
}
