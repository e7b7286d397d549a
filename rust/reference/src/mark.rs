//! The marking of a run (01, "What can go wrong with a call", after the table).

use crate::check::check;
use crate::evaluate::evaluate;
use crate::kind::INSTANCE;
use crate::record::read;
use crate::refusal::{require, Refusal};

#[derive(Clone, Copy, Debug, Default, PartialEq, Eq)]
pub struct Totals {
    pub included: u64,
    pub excluded: u64,
    pub failed: u64,
}

/// The instances of a run, or 40 at its first record that isn't whole or is of another kind.
pub fn instances(run: &[u8]) -> Result<Vec<&[u8]>, Refusal> {
    let (records, broken) = read(run);
    let other = records.iter().find(|record| record.kind != INSTANCE).map(|record| record.start);
    match other.or(broken) {
        Some(start) => Err(Refusal { number: 40, place: start as u64 }),
        None => Ok(records.iter().map(|record| record.body).collect()),
    }
}

/// Writes 1 included, 0 excluded, 255 for 31, one for each instance.
pub fn mark(query: &[u8], table: &[u8], run: &[u8], marks: &mut [u8]) -> Result<Totals, Refusal> {
    check(query, table)?;
    let instances = instances(run)?;
    require(marks.len() >= instances.len(), 41, 0)?;
    let mut totals = Totals::default();
    for (mark, instance) in marks.iter_mut().zip(instances) {
        let (byte, total) = match evaluate(query, table, instance) {
            Ok(answer) if answer.included => (1, &mut totals.included),
            Ok(_) => (0, &mut totals.excluded),
            Err(Refusal { number: 31, .. }) => (255, &mut totals.failed),
            // The check has accepted the query, and a body is never too long for an instance.
            Err(other) => panic!("{other:?} in a run"),
        };
        *mark = byte;
        *total += 1;
    }
    Ok(totals)
}
