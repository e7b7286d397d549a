//! The marks of a run: refusals 40 and 41.

use crate::kind::INSTANCE;
use crate::note::Note;
use crate::program::Program;
use crate::refusal::{refuse, Refusal};
use crate::table::PROPERTIES;
use crate::walk::{record, walk};

const FAILED: u8 = 255;

#[derive(Clone, Copy, Debug, Default, PartialEq, Eq)]
pub struct Totals {
    pub included: u64,
    pub excluded: u64,
    pub failed: u64,
}

/// How many instances a run has.
fn count(run: &[u8]) -> Result<usize, Refusal> {
    let (mut at, mut count) = (0, 0);
    while at < run.len() {
        match record(run, at) {
            Some((header, next)) if header >> 16 == u32::from(INSTANCE) => at = next,
            _ => return refuse(40, at),
        }
        count += 1;
    }
    Ok(count)
}

impl Program {
    /// Writes 1 for an instance that is included, 0 for one that isn't, 255 for one that doesn't conform.
    pub fn mark(&mut self, run: &[u8], marks: &mut [u8]) -> Result<Totals, Refusal> {
        let count = count(run)?;
        let Some(marks) = marks.get_mut(..count) else { return refuse(41, 0) };
        let mut notes = [Note::NULL; PROPERTIES];
        let (mut totals, mut at) = (Totals::default(), 0);
        for mark in marks {
            let (_, next) = record(run, at).expect("counted before");
            let instance = &run[at + 4..next];
            *mark = match walk(&self.expected, instance, &mut notes) {
                Ok(()) => u8::from(self.run(instance, &notes).included),
                Err(_) => FAILED,
            };
            totals.included += u64::from(*mark == 1);
            totals.failed += u64::from(*mark == FAILED);
            at = next;
        }
        totals.excluded = count as u64 - totals.included - totals.failed;
        Ok(totals)
    }
}
