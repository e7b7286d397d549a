//! The marks of a watch over a run: whether enough of the last instances are included.

use crate::explanation::{marks, Explanation};
use crate::refused::refused;

/// A line for each instance, its number from 1 and its mark, and the totals. A run may be longer than the program's.
pub fn watch(query: &[u8], table: &[u8], run: &[u8], window: u64, need: u64) -> Explanation {
    let mut marks = marks(run);
    let totals = match fql::watch(query, table, run, window, need, &mut marks) {
        Ok(totals) => totals,
        Err(refusal) => return Explanation { accepted: false, text: refused(refusal, query, table, run) },
    };
    let instances = (totals.ones + totals.zeros) as usize;
    let lines = (1..).zip(&marks[..instances]).map(|(number, mark): (usize, _)| format!("{number} {mark}\n"));
    let text = lines.collect::<String>() + &format!("{} ones, {} zeros\n", totals.ones, totals.zeros);
    Explanation { accepted: true, text }
}
