//! Random watches over runs: windows and needs at the edges of their ranges and of the run, and beyond them, and needs
//! at a count that comes up; instances that are included in stretches, with some among them that don't conform.

use super::run::{with_instances, RunCase};
use crate::kind::{BOOLEAN, CLASS, INSTANCE};
use crate::random::Random;
use crate::record::write;
use crate::watch::{included_of_the_last, plain_marks};

#[derive(Clone)]
pub struct WatchCase {
    pub call: RunCase,
    pub window: u64,
    pub need: u64,
}

pub fn random(r: &mut Random) -> WatchCase {
    let call = if r.chance(4) { with_instances(r, number_of_instances) } else { of_stretches(r) };
    let window = window(r, call.marks.len() as u64);
    let need = if r.chance(2) { need(r, window) } else { edge(r, &call, window) };
    WatchCase { call, window, need }
}

/// Half of the runs are longer than the longest window, and some than two or four of it.
fn number_of_instances(r: &mut Random) -> usize {
    match r.below(32) {
        0..=3 => r.below(4),
        4..=7 => r.below(65),
        8..=15 => 62 + r.below(5),
        16..=30 => 64 + r.below(100),
        _ => 300 + r.below(100),
    }
}

/// One of the edges, one near so many instances, any of the range, or one out of it.
fn window(r: &mut Random, instances: u64) -> u64 {
    match r.below(12) {
        0 => out_of_range(r, 64),
        1..=5 => r.pick(&[1, 2, 63, 64]),
        6 | 7 => (instances + r.below(3) as u64).saturating_sub(1).clamp(1, 64),
        _ => 1 + r.below(64) as u64,
    }
}

/// Likewise in the range that the window gives, more often in its lower part, where marks of 1 come up.
fn need(r: &mut Random, window: u64) -> u64 {
    let most = window.clamp(1, 64);
    match r.below(12) {
        0 => out_of_range(r, most),
        1..=4 => r.pick(&[1, 2, most / 2, most - 1, most]).clamp(1, most),
        5 | 6 => 1 + r.below(most as usize) as u64,
        _ => 1 + r.below(1 + most as usize / 3) as u64,
    }
}

/// As many as are included of the last at some instance, or one more, so that a count that is wrong by one gives
/// another mark there. The instance is any, or one at the end of the first or second window, or beside it.
fn edge(r: &mut Random, RunCase { query, table, run, marks }: &RunCase, window: u64) -> u64 {
    let plain = plain_marks(query, table, run, marks.len()).unwrap_or_default();
    if plain.is_empty() {
        return need(r, window);
    }
    let most = window.clamp(1, 64);
    let number = match r.chance(2) {
        true => 1 + r.below(plain.len()),
        false => (most as usize * (1 + r.below(2)) + r.below(3) - 1).clamp(1, plain.len()),
    };
    (included_of_the_last(most, &plain[..number]) + r.below(2) as u64).clamp(1, most)
}

/// None of the numbers from 1 to the most; some are so in their lowest bytes.
fn out_of_range(r: &mut Random, most: u64) -> u64 {
    let within = 1 + r.below(most as usize) as u64;
    let far = r.word().max(most + 1);
    r.pick(&[0, 0, most + 1, most + 1, most + 2, 256 + within, 1 << 32 | within, 1 << 63 | within, far, u64::MAX])
}

/// A filter over one flag, so that stretches of any length are included or not; so many instances, and so many marks
/// beyond.
pub fn of_one_flag(r: &mut Random, instances: usize, beyond: usize) -> RunCase {
    let query = r.pick(&["On = TRUE", "On <> FALSE", "On = FALSE"]).as_bytes().to_vec();
    let table = [write(CLASS, b"P"), write(BOOLEAN, b"On")].concat();
    let run = stretches(r, instances).iter().flat_map(|body| write(INSTANCE, body)).collect();
    let marks = (0..instances + beyond).map(|_| r.pick(&[0, 1, 7, 255])).collect();
    RunCase { query, table, run, marks }
}

/// Such calls, some of them with a damaged query, table or run, or with too few marks.
fn of_stretches(r: &mut Random) -> RunCase {
    let (instances, beyond) = (number_of_instances(r), r.below(4));
    let mut call = of_one_flag(r, instances, beyond);
    if r.chance(24) {
        call.run = r.damage(&call.run);
    }
    if r.chance(20) {
        call.table.clear();
    }
    if r.chance(40) {
        call.query.extend(b" AND");
    }
    if r.chance(24) {
        call.marks.truncate(r.below(instances + 1));
    }
    call
}

/// In a stretch all instances have the flag, or none; or most do or don't, or they are mixed, and some fail.
fn stretches(r: &mut Random, instances: usize) -> Vec<Vec<u8>> {
    let mut out = Vec::new();
    while out.len() < instances {
        let (usual, alike) = (r.chance(2), r.chance(3));
        let (rare, longest) = (r.pick(&[2, 6, 30]), r.pick(&[3, 20, 80, 200]));
        for _ in 0..1 + r.below(longest) {
            let flag = usual != (!alike && r.chance(rare));
            out.push(if !alike && r.chance(8) { vec![] } else { write(BOOLEAN, &[u8::from(flag)]) });
        }
    }
    out.truncate(instances);
    out
}
