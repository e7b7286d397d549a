//! The watch over a run (02, Q-4): a mark says whether enough of the last instances are included.

use crate::mark::mark;
use crate::refusal::{require, Refusal};

const LONGEST_WINDOW: u64 = 64;
const INCLUDED: u8 = 1;

#[derive(Clone, Copy, Debug, Default, PartialEq, Eq)]
pub struct WatchTotals {
    pub ones: u64,
    pub zeros: u64,
}

/// Writes 1 for an instance "when at least k of the last n, up to and with it, are included, else 0".
pub fn watch(
    query: &[u8],
    table: &[u8],
    run: &[u8],
    window: u64,
    need: u64,
    marks: &mut [u8],
) -> Result<WatchTotals, Refusal> {
    // "42 for n or k outside its range, tried before the table; its place is 0."
    require((1..=LONGEST_WINDOW).contains(&window) && (1..=window).contains(&need), 42, 0)?;
    let plain = plain_marks(query, table, run, marks.len())?;
    let watched: Vec<u8> =
        (1..=plain.len()).map(|n| u8::from(included_of_the_last(window, &plain[..n]) >= need)).collect();
    marks[..watched.len()].copy_from_slice(&watched);
    let of = |byte: u8| watched.iter().filter(|mark| **mark == byte).count() as u64;
    Ok(WatchTotals { ones: of(1), zeros: of(0) })
}

/// What mark writes for the instances into so many marks, or its refusal.
pub fn plain_marks(query: &[u8], table: &[u8], run: &[u8], length: usize) -> Result<Vec<u8>, Refusal> {
    let mut plain = vec![0; length];
    let totals = mark(query, table, run, &mut plain)?;
    plain.truncate((totals.included + totals.excluded + totals.failed) as usize);
    Ok(plain)
}

/// "Before n have passed, those that there are count. An instance that would be marked 255 counts as not included."
pub fn included_of_the_last(window: u64, so_far: &[u8]) -> u64 {
    let last = &so_far[so_far.len().saturating_sub(window as usize)..];
    last.iter().filter(|mark| **mark == INCLUDED).count() as u64
}
