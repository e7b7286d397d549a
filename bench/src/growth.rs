//! How the time grows with one size at a time, the others fixed: linear where the last column stays level. In the last
//! group the index grows and the instances stay the same: there a level column says that the time doesn't depend on it.

use crate::clock::{compare, measure, Contestant};
use crate::data::Setting;
use reference::kind::{CLASS, INSTANCE, STRING};
use reference::record::write;

pub fn run() {
    println!("\ngrowth of mark: nanoseconds for a call, and for each unit");
    print_head("each unit");
    for n in [250, 500, 1_000, 2_000, 4_000, 8_000] {
        row("instances of the run", n, &Setting::sample(0, n), b"Temp > 0");
    }
    for n in [1, 2, 4, 8, 16, 32, 64] {
        let query = vec!["Temp <> 1000"; n].join(" AND ");
        row("comparisons, 500 instances", n, &Setting::sample(0, 500), query.as_bytes());
    }
    for n in [6, 12, 25, 50, 100, 128] {
        let setting = Setting::sample(n - 6, 200);
        row("properties, 200 instances", n, &setting, b"Temp > 0");
    }
    for n in [1_000, 2_000, 4_000, 8_000, 16_000, 32_000, 64_000] {
        text_row("characters of a LIKE text", n);
    }
    over_indices();
}

fn row(what: &str, units: usize, setting: &Setting, query: &[u8]) {
    let mut marks = setting.marks();
    let call = || fql::mark(query, &setting.table, &setting.run, &mut marks).unwrap().included;
    print_row(what, units, measure(call), units);
}

fn text_row(what: &str, units: usize) {
    let table = [write(CLASS, b"T"), write(STRING, b"S")].concat();
    let run = write(INSTANCE, &write(STRING, "x".repeat(units).as_bytes()));
    let mut marks = [0];
    let call = || fql::mark(b"S LIKE '[a-z]*'", &table, &run, &mut marks).unwrap().included;
    print_row(what, units, measure(call), units);
}

/// All indices take turns, so that a slower moment of the machine is no index's.
fn over_indices() {
    let setting = Setting::sample(0, 500);
    let count = setting.instances;
    let indices = [4, 16, 64, 256, 1_024, 4_096, 16_384, 65_535];
    for index in indices {
        assert_eq!(past_the_end(&setting, index)(), 0, "an instance is included, at index {index}");
    }
    let times = compare(&mut indices.map(|index| Contestant::new(past_the_end(&setting, index))));
    println!("\ngrowth of mark with the index, {count} instances: nanoseconds for a call, and for each instance");
    print_head("an instance");
    for (index, time) in indices.into_iter().zip(times) {
        print_row("index past the end", index, time, count);
    }
}

/// A call of mark on marks of its own. `Dev` has at most three elements, and NULL past its end is no 1.
fn past_the_end(setting: &Setting, index: usize) -> impl FnMut() -> u64 + '_ {
    let (query, mut marks) = (format!("Dev[{index}] = 1"), setting.marks());
    move || fql::mark(query.as_bytes(), &setting.table, &setting.run, &mut marks).unwrap().included
}

/// The columns of a growth; the last is named by what a call's time is divided by.
pub fn print_head(each: &str) {
    println!("{:30}{:>10}{:>14}{each:>12}", "what grows", "units", "call");
}

/// So many units, a call's time, and it divided by a number.
pub fn print_row(what: &str, units: usize, call: f64, divisor: usize) {
    println!("{what:30}{units:>10}{call:>14.0}{:>12.1}", call / divisor as f64);
}
