//! Questions about a class of few properties.

use std::cmp::Ordering;

use fql::record::{write, CLASS, INSTANCE};

/// A class `P` with properties `A`, `B` and so on, of these kinds.
pub fn table(kinds: &[u16]) -> Vec<u8> {
    kinds.iter().zip(b'A'..).fold(write(CLASS, b"P"), |out, (&kind, name)| [out, write(kind, &[name])].concat())
}

/// Number and place with which the check refuses a query.
pub fn refusal(query: &[u8], table: &[u8]) -> Option<(u64, u64)> {
    fql::check(query, table).err().map(|refusal| (refusal.cause.number(), refusal.place))
}

/// The mark of each instance under a query that the check accepts.
pub fn marks(query: &str, table: &[u8], instances: &[Vec<u8>]) -> Vec<u8> {
    let mut run = Vec::new();
    for instance in instances {
        run.extend(write(INSTANCE, instance));
    }
    let mut marks = vec![7; instances.len()];
    fql::mark(query.as_bytes(), table, &run, &mut marks).unwrap_or_else(|refusal| panic!("{query}: {refusal}"));
    marks
}

/// Verdict and steps of a query that the check accepts, on an instance that conforms.
pub fn answer(query: &str, table: &[u8], instance: &[u8]) -> (bool, u64) {
    let answer = fql::evaluate(query.as_bytes(), table, instance);
    let answer = answer.unwrap_or_else(|refusal| panic!("{query} on {}: {refusal}", instance.escape_ascii()));
    (answer.verdict == fql::Verdict::Included, answer.steps)
}

/// An operator, and whether it holds of values that stand in this order, or in none.
pub type Operator = (&'static str, fn(Option<Ordering>) -> bool);

pub const OPERATORS: [Operator; 6] = [
    ("=", |order| order == Some(Ordering::Equal)),
    ("<>", |order| order != Some(Ordering::Equal)),
    ("<", |order| order == Some(Ordering::Less)),
    ("<=", |order| matches!(order, Some(Ordering::Less | Ordering::Equal))),
    (">", |order| order == Some(Ordering::Greater)),
    (">=", |order| matches!(order, Some(Ordering::Greater | Ordering::Equal))),
];

/// Holds each operator between two sides to the order in which they stand in each instance.
pub fn hold_to_orders(
    left: &str,
    right: &str,
    table: &[u8],
    instances: &[Vec<u8>],
    order: impl Fn(usize) -> Option<Ordering>,
) {
    for (operator, holds) in OPERATORS {
        let query = format!("{left} {operator} {right}");
        for (n, mark) in marks(&query, table, instances).into_iter().enumerate() {
            assert_eq!(mark, mark_of(holds(order(n))), "{query} on {}", instances[n].escape_ascii());
        }
    }
}

pub fn mark_of(holds: bool) -> u8 {
    match holds {
        true => fql::INCLUDED,
        false => fql::EXCLUDED,
    }
}
