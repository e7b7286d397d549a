//! How often datetimes with unknown digits came up: in values and in literals, beside each other and beside datetimes
//! whose digits are all known, and in what was refused for them.

use std::cmp::Ordering;
use std::collections::{BTreeMap, BTreeSet};
use std::fmt;

use super::Case;
use crate::datetime::{order, parse, Datetime};
use crate::kind::{is_array, ARRAY, DATETIME};
use crate::meaning::Meaning;
use crate::record::{read, Record};
use crate::syntax::{Comparison, Right};
use crate::token::string;
use crate::value::Value;
use crate::Refusal;

/// What holds the digits or who meets, and in what way.
type Sort = (&'static str, &'static str);

/// One whose digits are all known never equals one with unknown digits.
const SORTS: [Sort; 15] = [
    ("in a value", "timestamp"),
    ("in a value", "interval"),
    ("in a literal", "timestamp"),
    ("in a literal", "interval"),
    ("beside unknown digits", "before"),
    ("beside unknown digits", "equal"),
    ("beside unknown digits", "after"),
    ("beside unknown digits", "undecided"),
    ("beside unknown digits", "of the other form"),
    ("beside known digits", "before"),
    ("beside known digits", "after"),
    ("beside known digits", "undecided"),
    ("beside known digits", "of the other form"),
    ("refused", "literal"),
    ("refused", "value"),
];

#[derive(Default)]
pub struct Spans(BTreeMap<Sort, usize>);

fn form(datetime: Datetime) -> &'static str {
    match datetime {
        Datetime::Timestamp(_) => "timestamp",
        Datetime::Interval(_) => "interval",
    }
}

fn standing(a: Datetime, b: Datetime) -> &'static str {
    match order(a, b) {
        Some(Ordering::Less) => "before",
        Some(Ordering::Equal) => "equal",
        Some(Ordering::Greater) => "after",
        None if form(a) == form(b) => "undecided",
        None => "of the other form",
    }
}

/// What a pair of values is an example of; `right` says what holds the second.
fn sorts_of_pair(pair: &(Value, Value), right: &'static str) -> Vec<Sort> {
    let &(Value::Datetime(a), Value::Datetime(b)) = pair else { return Vec::new() };
    let [in_a, in_b] = [("in a value", form(a)), (right, form(b))];
    match (a.has_unknown_digits(), b.has_unknown_digits()) {
        (false, false) => Vec::new(),
        (true, false) => vec![in_a, ("beside known digits", standing(a, b))],
        (false, true) => vec![in_b, ("beside known digits", standing(a, b))],
        (true, true) => vec![in_a, in_b, ("beside unknown digits", standing(a, b))],
    }
}

/// Whether a value of an instance has stars and is no datetime.
fn is_spoiled(record: &Record) -> bool {
    match record.kind {
        DATETIME => record.body.contains(&b'*') && parse(record.body).is_none(),
        kind => kind == ARRAY | DATETIME && read(record.body).0.iter().any(|e| !is_array(e.kind) && is_spoiled(e)),
    }
}

impl Spans {
    fn count(&mut self, sort: Sort) {
        *self.0.entry(sort).or_default() += 1;
    }

    /// What a comparison sets beside each other, each sort once.
    pub fn add(&mut self, meaning: &Meaning, c: &Comparison) {
        let right = if matches!(c.right, Right::Property(_)) { "in a value" } else { "in a literal" };
        let sorts: BTreeSet<Sort> = meaning.pairs(c).iter().flat_map(|pair| sorts_of_pair(pair, right)).collect();
        sorts.into_iter().for_each(|sort| self.count(sort));
    }

    /// A literal refused with 25, or a value with 31.
    pub fn add_refused(&mut self, case: &Case, refusal: Refusal) {
        let place = refusal.place as usize;
        match refusal.number {
            25 if string(&case.query[place..]).is_some_and(|(text, _)| text.contains('*')) => {
                self.count(("refused", "literal"));
            }
            31 if read(&case.instance).0.iter().any(|r| r.start == place && is_spoiled(r)) => {
                self.count(("refused", "value"));
            }
            _ => {}
        }
    }

    /// Each sort comes up at least half as often.
    pub fn assert_at_least(&self, least: usize) {
        for sort in SORTS {
            let n = self.0.get(&sort).copied().unwrap_or(0);
            assert!(2 * n >= least, "unknown digits {sort:?} only {n} times");
        }
    }
}

impl fmt::Display for Spans {
    fn fmt(&self, f: &mut fmt::Formatter) -> fmt::Result {
        self.0.iter().try_for_each(|((a, b), n)| write!(f, "\n{a}, {b}: {n}"))
    }
}
