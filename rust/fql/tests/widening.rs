//! The same whole numbers in other integer types, in table and instance alike: the check says the same, number and
//! place, and so does the evaluation, verdict and steps; on the engine, the second evaluator and the tuned engine.

mod common;

use common::often::assert_often;
use common::pairs::{same_answer, Differences};
use common::{agree, Found};
use fql::record::{write, CLASS};
use fql::types::{SINT64, SINT8, STRING};
use reference::cases::widened::{pair, same_number, zero_extended, Changes, Pair};
use reference::random::{for_each_seed, Random};
use reference::{Answer, Refusal};

const PAIRS: usize = 40_000;

/// What came up, so that the test can't pass by trying nothing.
#[derive(Debug, Default)]
struct Seen {
    changes: Changes,
    included: usize,
    excluded: usize,
    refused: usize,
    /// Answered queries over a table of which some property changed its type.
    answered_over_others: usize,
}

impl Seen {
    fn add(&mut self, pair: &Pair, found: Found) {
        self.changes.add(&pair.changes);
        match found {
            Ok(answer) if answer.included => self.included += 1,
            Ok(_) => self.excluded += 1,
            Err(_) => self.refused += 1,
        }
        self.answered_over_others += usize::from(found.is_ok() && pair.changes.scalars + pair.changes.arrays > 0);
    }

    fn assert_spread(&self) {
        let c = &self.changes;
        assert_often(&[
            ("scalars of another type", c.scalars, 20_000),
            ("arrays of another type", c.arrays, 20_000),
            ("more bytes", c.wider, 20_000),
            ("fewer bytes", c.narrower, 10_000),
            ("another sign", c.of_another_sign, 5_000),
            ("NULL in a property of another type", c.nulls, 7_000),
            ("NULL elements in an array of another type", c.null_elements, 8_000),
            ("negative numbers in another type", c.negative_numbers, 9_000),
            ("other records of a subclass", c.subclass_records, 10_000),
            ("included", self.included, 8_000),
            ("excluded", self.excluded, 8_000),
            ("refused by the check", self.refused, 2_000),
            ("answered over a table with another type", self.answered_over_others, 15_000),
        ]);
    }
}

fn widening(r: &mut Random) {
    let mut seen = Seen::default();
    for _ in 0..PAIRS {
        let pair = pair(r, same_number);
        let found = same_answer(pair.inputs());
        seen.add(&pair, found);
    }
    println!("{seen:?}");
    seen.assert_spread();
}

#[test]
fn a_query_keeps_its_answer() {
    for_each_seed(widening);
}

/// With negative numbers that become positive ones, verdicts and steps differ: the test above would tell.
fn wrong_widening(r: &mut Random) {
    let mut found = Differences::default();
    for _ in 0..PAIRS {
        found.add(pair(r, zero_extended).inputs());
    }
    found.assert_at_least("zero-extended", 250, 300);
}

#[test]
fn a_wrong_widening_changes_answers() {
    for_each_seed(wrong_widening);
}

/// With −5 in 8 bytes in place of one an instance is 7 bytes longer, which may take it past its limit.
#[test]
fn up_to_the_limit_of_an_instance() {
    let ask = |kind: u16, number: &[u8], spare: usize| {
        let table = [write(CLASS, b"P"), write(kind, b"A")].concat();
        let instance = [write(kind, number), write(STRING, &vec![b'a'; spare])].concat();
        (instance.len(), agree(b"A = -5", &table, &instance))
    };
    let included = Ok(Answer { included: true, steps: 1 });
    let too_long = Err(Refusal { number: 30, place: 0 });
    for (spare, wider) in [(65_519, included), (65_520, too_long)] {
        assert_eq!(ask(SINT8, &(-5i8).to_le_bytes(), spare), (9 + spare, included));
        assert_eq!(ask(SINT64, &(-5i64).to_le_bytes(), spare), (16 + spare, wider));
    }
}
