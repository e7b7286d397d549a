//! check beside the tuned engine and the second evaluator.

use crate::clock::{compare, Contestant};
use crate::data::{table, Setting};
use crate::score::{cells, Score};

pub fn run(score: &mut Score) {
    println!("\ncheck: nanoseconds for each call");
    println!("{:46}{:>12}{:>12}{:>8}{:>12}{:>8}", "query", "engine", "tuned", "ratio", "second", "ratio");
    let (few, many) = (table(), Setting::named("large").table);
    let of = |comparison: &str, join: &str, n| vec![comparison; n].join(join).into_bytes();
    let long = format!("Name = '{}'", "x".repeat(48));
    let rows = [
        ("one comparison, 8 bytes", &few, of("Temp > 0", "", 1)),
        ("two comparisons, 21 bytes", &few, of("Temp > 0", " AND ", 2)),
        ("64 comparisons, 827 bytes", &few, of("Temp > 0", " AND ", 64)),
        ("64 comparisons, 4,032 bytes", &few, of(&long, " OR ", 64)),
        ("a pattern, 43 bytes", &few, of("Name LIKE '(FAN|PUMP)_[0-9]+(a|b)?.*(x|y)*'", "", 1)),
        ("one comparison, 128 properties", &many, of("Temp > 0", "", 1)),
        ("64 comparisons, 4,032 bytes, 128 properties", &many, of(&long, " OR ", 64)),
    ];
    for (name, table, query) in &rows {
        row(score, name, table, query);
    }
}

fn row(score: &mut Score, name: &str, table: &[u8], query: &[u8]) {
    assert_eq!(fql::check(query, table), Ok(()));
    assert_eq!(reference::check(query, table), Ok(()));
    assert_eq!(tuned::check(query, table), Ok(()));
    let times = compare(&mut [
        Contestant::new(|| u64::from(fql::check(query, table).is_ok())),
        Contestant::new(|| u64::from(tuned::check(query, table).is_ok())),
        Contestant::new(|| u64::from(reference::check(query, table).is_ok())),
    ]);
    let row = format!("check, {name}");
    let tuned = cells(Some((times[1], score.add("check: tuned", &row, times[0], times[1]))));
    let second = cells(Some((times[2], score.add("check: second evaluator", &row, times[0], times[2]))));
    println!("{name:46}{:>12.0}{tuned}{second}", times[0]);
}
