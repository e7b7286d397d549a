//! Wide instances: each comparison is answered from the records of the properties that it names, wherever they start.

use std::cmp::Ordering;

use reference::cases::wide::{case, OFTEN};
use reference::cases::{call, Case, Intended};
use reference::check::{self, find};
use reference::kind::{is_array, NULL};
use reference::random::{for_each_seed, Random};
use reference::record::{read, Record};
use reference::syntax::Side;

use crate::common::agree;
use crate::seen::Seen;

/// Which property a query names, and on which side.
fn named(side: Side, property: usize) -> &'static str {
    let left = ["left, 1st", "left, 2nd", "left, 64th", "left, 127th", "left, 128th"];
    let right = ["right, 1st", "right, 2nd", "right, 64th", "right, 127th", "right, 128th"];
    match (side, OFTEN.iter().position(|&n| n == property)) {
        (Side::Left, at) => at.map_or("left, another", |at| left[at]),
        (Side::Right, at) => at.map_or("right, another", |at| right[at]),
    }
}

/// What the instance holds for a property that is named.
fn held(kind: u16, record: &Record) -> &'static str {
    match record.kind {
        NULL => "NULL",
        _ if is_array(kind) && record.body.is_empty() => "an empty array",
        _ if is_array(kind) && read(record.body).0.len() == 256 => "a full array",
        _ if record.body.len() > 100 => "a long value",
        _ => "a value",
    }
}

/// Where the next comparison's property stands beside this one's.
fn next(this: usize, then: usize) -> &'static str {
    match then.cmp(&this) {
        Ordering::Less => "an earlier property next",
        Ordering::Equal => "the same property next",
        Ordering::Greater => "a later property next",
    }
}

fn add_answered(case: &Case, seen: &mut Seen) {
    let (table, comparisons) = check::read(&case.query, &case.table).unwrap();
    let (records, _) = read(&case.instance);
    let mut lefts = Vec::new();
    for (side, path) in comparisons.iter().flat_map(|(comparison, _)| comparison.paths()) {
        let (number, kind) = find(&case.query, &table, path).unwrap();
        seen.add(named(side, number));
        seen.add(held(kind, &records[number]));
        match (side, path.index) {
            (_, None) => {}
            (Side::Left, Some(_)) => seen.add("left, an index"),
            (Side::Right, Some(_)) => seen.add("right, an index"),
        }
        if side == Side::Left {
            lefts.push(number);
        }
    }
    lefts.windows(2).for_each(|pair| seen.add(next(pair[0], pair[1])));
    if table.properties.len() == 128 && records.len() > 128 {
        seen.add("a further record behind 128");
    }
}

fn answers(r: &mut Random) {
    let mut seen = Seen::default();
    for _ in 0..12_000 {
        let case = case(r);
        let found = agree(&case.query, &case.table, &case.instance);
        let shown = || call("agree", &[&case.query, &case.table, &case.instance]);
        assert_eq!(found.is_ok(), case.intended == Intended::Answer, "{found:?}:\n{}", shown());
        match found {
            Ok(answer) => {
                seen.add(if answer.included { "included" } else { "excluded" });
                add_answered(&case, &mut seen);
            }
            Err(refusal) => {
                assert_eq!(refusal.number, 31, "{}", shown());
                seen.add("not conforming");
            }
        }
    }
    seen.assert_at_least(&[
        ("included", 4_000),
        ("excluded", 2_500),
        ("not conforming", 2_000),
        ("left, 1st", 6_000),
        ("left, 2nd", 6_000),
        ("left, 64th", 4_000),
        ("left, 127th", 2_000),
        ("left, 128th", 2_000),
        ("left, another", 12_000),
        ("left, an index", 5_500),
        ("right, 1st", 1_500),
        ("right, 2nd", 1_500),
        ("right, 64th", 1_000),
        ("right, 127th", 600),
        ("right, 128th", 600),
        ("right, another", 4_000),
        ("right, an index", 2_300),
        ("an earlier property next", 10_000),
        ("the same property next", 4_000),
        ("a later property next", 10_000),
        ("NULL", 7_000),
        ("an empty array", 4_000),
        ("a full array", 80),
        ("a long value", 500),
        ("a value", 30_000),
        ("a further record behind 128", 1_000),
    ]);
}

#[test]
fn random_queries() {
    for_each_seed(answers);
}
