//! The engine beside its peers, in one run: release builds, the same inputs, and the same answers, which are compared
//! before anything is printed. The peers are the tuned engine (`bench/tuned`), which is the one to beat, the second
//! evaluator (`rust/reference`), which is written for plainness, SQLite and RE2.
//!
//! `bench` measures everything; `bench PART` one part of it, as `PARTS` names them; `bench slow WORD` the slow inputs
//! whose name holds the word; `bench search SECONDS [SEED]` searches for slower ones; `bench profile KIND [SETTING]`
//! makes single calls for a profiler. To hold two archives against each other, build twice and run in turns:
//! `FQL_ARCHIVE=folder cargo build --release --target-dir other` links the `libfql_export.a` of that folder.

mod check;
mod clock;
mod conjoin;
mod data;
mod evaluate;
mod growth;
#[cfg(re2)]
mod like;
mod mark;
mod profile;
#[cfg(re2)]
mod re2;
mod score;
mod slow;
#[cfg_attr(not(sqlite), path = "sqlite_absent.rs")]
mod sqlite;
mod stack;
mod watch;

use data::{filters, filters_of_temp, others, Setting};
use score::Score;

/// Of the search.
const SEED: u64 = 20_260_101;

/// A name, and what is measured under it.
type Part = (&'static str, fn(&mut Score));

/// The parts of a run; those that have a score come first.
const PARTS: [Part; 10] = [
    ("check", check::run),
    ("evaluate", evaluates),
    ("mark", marks),
    ("like", likes),
    ("score", |score| score.print()),
    ("watch", |_| watch::run(&Setting::named("small"))),
    ("conjoin", |_| conjoin::run()),
    ("growth", |_| growth::run()),
    ("stack", |_| stack::run()),
    ("slow", |_| slow::run("")),
];

fn main() {
    let arguments: Vec<String> = std::env::args().skip(1).collect();
    match arguments.iter().map(String::as_str).collect::<Vec<_>>()[..] {
        [] => measure(),
        ["profile", kind] => profile::run(kind, "small"),
        ["profile", kind, setting] => profile::run(kind, setting),
        ["slow", word] => slow::run(word),
        ["search", seconds] => slow::search(number(seconds), SEED),
        ["search", seconds, seed] => slow::search(number(seconds), number(seed)),
        [part] => PARTS.iter().find(|(name, _)| *name == part).expect("a part of a run").1(&mut Score::default()),
        ref other => panic!("{other:?}: see the head of main.rs"),
    }
}

fn measure() {
    match sqlite::version() {
        Some(version) => println!("SQLite {version}, in memory, prepared statements"),
        None => println!("SQLite left out: libsqlite3 with its header is not installed"),
    }
    let mut score = Score::default();
    for (_, part) in PARTS {
        part(&mut score);
    }
    slow::search(20, SEED);
}

fn number(argument: &str) -> u64 {
    argument.parse().unwrap_or_else(|e| panic!("{argument}: {e}"))
}

fn evaluates(score: &mut Score) {
    for size in ["small", "large"] {
        evaluate::run(score, &Setting::named(size), size);
    }
}

#[cfg(re2)]
fn likes(score: &mut Score) {
    like::run(score);
}

#[cfg(not(re2))]
fn likes(_: &mut Score) {
    println!("RE2 left out: libre2 with its header is not installed");
}

fn marks(score: &mut Score) {
    let late = "instances of 128 integers of which the filter names the last";
    let settings = [
        ("small", "small instances", filters()),
        ("large", "large instances", filters()),
        ("late", late, filters_of_temp()),
    ];
    for (name, instances, filters) in settings {
        let setting = Setting::named(name);
        mark::print_head(&format!("a run of {} {instances}", setting.instances));
        for filter in &filters {
            mark::row(score, &setting, name, filter);
        }
    }
    mark::print_head("runs of 1000 instances of other classes");
    for (setting, filter) in &others() {
        mark::row(score, setting, "other classes", filter);
    }
}
