//! Random runs for a comparison of two markers: good ones, and ones with a damaged table, query, instance or run, or
//! too few marks.

use super::source::Source;
use super::{comparison, value};
use crate::kind::{BOOLEAN, CLASS, INSTANCE, NULL};
use crate::random::Random;
use crate::record::write;

#[derive(Clone)]
pub struct RunCase {
    pub query: Vec<u8>,
    pub table: Vec<u8>,
    pub run: Vec<u8>,
    /// The marks before the call.
    pub marks: Vec<u8>,
}

fn body(r: &mut Random, source: &Source) -> Vec<u8> {
    let body = if r.chance(3) { source.instance.clone() } else { value::instance(r, &source.table) };
    match r.below(12) {
        0 => Vec::new(),
        1 | 2 => r.damage(&body),
        _ => body,
    }
}

/// So many instances as records, sometimes with a record of another kind in front of one, or with other damage; also
/// most long runs have none.
fn run(r: &mut Random, source: &Source, instances: usize) -> Vec<u8> {
    let mut out = Vec::new();
    for _ in 0..instances {
        if r.chance(60.max(8 * instances)) {
            let kind = r.pick(&[NULL, BOOLEAN, 0x0003, CLASS, 0x0301, 0x1300, 0xffff]);
            out.extend(write(kind, b"x"));
        }
        out.extend(write(INSTANCE, &body(r, source)));
    }
    if r.chance(8) {
        out = r.damage(&out);
    }
    out
}

/// As many marks as instances, some more, or too few.
fn marks(r: &mut Random, instances: usize) -> Vec<u8> {
    let length = match r.below(8) {
        0 => r.below(instances + 1),
        1 | 2 => instances,
        _ => instances + r.below(5),
    };
    (0..length).map(|_| r.byte()).collect()
}

pub fn random(r: &mut Random) -> RunCase {
    with_instances(r, |r| if r.chance(100) { 250 + r.below(20) } else { r.below(7) })
}

/// Runs of so many instances, before any damage.
pub fn with_instances(r: &mut Random, count: impl Fn(&mut Random) -> usize) -> RunCase {
    let source = Source::random(r);
    let mut query = comparison::query(r, &source);
    let mut table = source.table.write();
    match r.below(16) {
        0 => query = r.damage(&query),
        1 => table = r.damage(&table),
        _ => {}
    }
    let instances = count(r);
    let run = run(r, &source, instances);
    let marks = marks(r, instances);
    RunCase { query, table, run, marks }
}
