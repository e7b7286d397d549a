//! Fault text on the engine and on the second evaluator, for numbers and places of every sort.

mod common;

use common::agree_on_fault_text;
use reference::examples::fault_texts;
use reference::random::{for_each_seed, Random};
use reference::{cases, check, FaultText};

#[test]
fn of_the_examples() {
    for e in fault_texts::examples() {
        let found = agree_on_fault_text(fault_texts::QUERY, fault_texts::TABLE, e.number, e.place);
        assert_eq!(found, e.expected, "{} at {}", e.number, e.place);
    }
}

#[test]
fn of_empty_slices() {
    for number in 0..=44 {
        let expected = match number {
            2 | 3 => FaultText::Table(&[]),
            1..=25 => FaultText::Query(&[]),
            _ => FaultText::Nothing,
        };
        assert_eq!(agree_on_fault_text(&[], &[], number, 0), expected, "{number}");
        assert_eq!(agree_on_fault_text(&[], &[], number, 1), FaultText::Nothing, "{number}");
    }
}

/// The part that a refusal shows starts at its place.
fn run(r: &mut Random) {
    let mut refused = 0;
    for _ in 0..20_000 {
        let case = cases::random(r);
        let (number, place) = (r.below(47) as u64, r.below(case.query.len() + case.table.len() + 2) as u64);
        agree_on_fault_text(&case.query, &case.table, number, place);
        if let Err(refusal) = check(&case.query, &case.table) {
            refused += 1;
            let source = if matches!(refusal.number, 2 | 3) { &case.table } else { &case.query };
            let shown = fql::fault_text(&case.query, &case.table, refusal.number, refusal.place);
            assert_eq!(shown.bytes(), &source[refusal.place as usize..]);
        }
    }
    println!("{refused} refusals");
    assert!(refused >= 5_000);
}

#[test]
fn of_random_cases() {
    for_each_seed(run);
}
