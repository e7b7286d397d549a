//! Random pairs of queries to make into one: of all shapes, near the limits, and with faults in either or in the table;
//! with a buffer and instances to try the text on.

mod limit;
mod shape;

use super::source::Source;
use super::{spoil, table, value};
use crate::conjoin::conjunction;
use crate::random::Random;
use crate::record::Table;
use crate::{check, queries};

pub struct ConjoinCase {
    pub first: Vec<u8>,
    pub second: Vec<u8>,
    pub table: Vec<u8>,
    /// Before the call.
    pub buffer: Vec<u8>,
    /// They conform, unless the table has a fault.
    pub instances: Vec<Vec<u8>>,
}

pub fn random(r: &mut Random) -> ConjoinCase {
    let source = source(r);
    let pair = match r.below(8) {
        0 => limit::comparisons(r, &source),
        1 => limit::bytes(r, &source),
        _ => [shape::query(r, &source), shape::query(r, &source)],
    };
    let table = source.table.write();
    let [first, second] = if r.chance(8) { damaged(r, pair) } else { pair };
    case(r, [first, second], table, 3)
}

/// One of the queries, or both, and the table are those of a case for check and evaluate, so that every cause comes up
/// in either.
pub fn with_a_fault(r: &mut Random) -> ConjoinCase {
    let faulty = match r.below(9) {
        0..=2 => super::limit::case(r),
        3 => spoil::table(r),
        _ => super::random(r),
    };
    let other = match (r.below(3), Table::read(&faulty.table)) {
        (0, _) | (_, Err(_)) => super::random(r).query,
        (_, Ok(table)) => {
            let source = Source::new(r, table);
            shape::query(r, &source)
        }
    };
    let pair = if r.chance(2) { [faulty.query, other] } else { [other, faulty.query] };
    case(r, pair, faulty.table, 1)
}

/// Mostly a few properties, so that both queries ask about the same.
fn source(r: &mut Random) -> Source {
    let table = match r.below(6) {
        0 => table::of_all_types(r),
        1 => table::random(r),
        _ => table::small(r),
    };
    Source::new(r, table)
}

fn damaged(r: &mut Random, [first, second]: [Vec<u8>; 2]) -> [Vec<u8>; 2] {
    let damaged = |r: &mut Random, query: Vec<u8>| match String::from_utf8(query) {
        Ok(text) => queries::damaged(r, &text),
        Err(e) => r.damage(e.as_bytes()),
    };
    match r.below(5) {
        0 | 1 => [damaged(r, first), second],
        2 | 3 => [first, damaged(r, second)],
        _ => [damaged(r, first), damaged(r, second)],
    }
}

fn case(r: &mut Random, [first, second]: [Vec<u8>; 2], table: Vec<u8>, instances: usize) -> ConjoinCase {
    let accepted = [&first, &second].iter().all(|query| check(query, &table).is_ok());
    let text = if accepted { conjunction(&first, &second).len() } else { r.below(100) };
    let buffer = buffer(r, text);
    let instances = match Table::read(&table) {
        Ok(table) => (0..instances).map(|_| value::instance(r, &table)).collect(),
        Err(_) => Vec::new(),
    };
    ConjoinCase { first, second, table, buffer, instances }
}

/// As long as the text or longer, else too short, by one byte or by more.
fn buffer(r: &mut Random, text: usize) -> Vec<u8> {
    let text = text.min(20_000);
    let length = match r.below(12) {
        0 | 1 => text,
        2 => text.saturating_sub(1),
        3 => r.below(text + 1),
        4 => 0,
        5 => 4_096,
        _ => text + r.below(6),
    };
    (0..length).map(|_| r.byte()).collect()
}
