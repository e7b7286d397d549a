//! Watched runs with the totals and marks that they give (02, Q-4).

use super::runs::{self, off, on, run};
use super::setting::sample;
use crate::{Refusal, WatchTotals};

pub struct WatchExample {
    pub query: Vec<u8>,
    pub table: Vec<u8>,
    pub run: Vec<u8>,
    pub window: u64,
    pub need: u64,
    /// Before the call.
    pub marks: Vec<u8>,
    pub expected: Result<WatchTotals, Refusal>,
    /// After the call.
    pub left: Vec<u8>,
}

pub fn examples() -> Vec<WatchExample> {
    let mut out = short();
    out.extend(failing());
    out.extend(leaving());
    out.extend(filling());
    out.extend(long());
    out.extend(marks_beyond());
    out.extend(out_of_range());
    out.extend(refused_as_mark());
    out
}

/// A run by its plain marks, with `x` for 255: an instance that is on, one that is off, one that doesn't conform.
fn instances(plain: &str) -> Vec<u8> {
    let body = |c: char| match c {
        '1' => on(),
        '0' => off(),
        'x' => vec![],
        other => panic!("{other} is no plain mark"),
    };
    run(&plain.chars().map(body).collect::<Vec<_>>())
}

/// `On = TRUE` over such a run, window, need, ones, zeros, and the marks after the call.
fn watched(plain: &str, [window, need, ones, zeros]: [u64; 4], marks: &str) -> WatchExample {
    WatchExample {
        query: b"On = TRUE".to_vec(),
        table: sample().table(),
        run: instances(plain),
        window,
        need,
        marks: vec![7; marks.len()],
        expected: Ok(WatchTotals { ones, zeros }),
        left: marks.bytes().map(|digit| digit - b'0').collect(),
    }
}

fn short() -> Vec<WatchExample> {
    vec![
        watched("", [1, 1, 0, 0], ""),
        watched("", [64, 64, 0, 0], ""),
        watched("1", [1, 1, 1, 0], "1"),
        watched("0", [1, 1, 0, 1], "0"),
        watched("1", [2, 1, 1, 0], "1"),
        watched("1", [2, 2, 0, 1], "0"),
        watched("1", [64, 1, 1, 0], "1"),
        watched("1", [64, 2, 0, 1], "0"),
        // With a window of 1 the plain marks.
        watched("110100", [1, 1, 3, 3], "110100"),
        // One bad reading is none, two of two or of three are.
        watched("00100110", [2, 2, 1, 7], "00000010"),
        watched("00100110", [3, 2, 2, 6], "00000011"),
        watched("0010100", [2, 2, 0, 7], "0000000"),
        watched("0010100", [3, 2, 1, 6], "0000100"),
        watched("110111", [3, 3, 1, 5], "000001"),
        // Before the window is full, those that there are count.
        watched("1101", [64, 3, 1, 3], "0001"),
        watched("111", [64, 64, 0, 3], "000"),
        watched("111", [64, 3, 1, 2], "001"),
        watched("111", [3, 3, 1, 2], "001"),
        watched("111", [4, 4, 0, 3], "000"),
        watched("0011", [5, 2, 1, 3], "0001"),
    ]
}

/// An instance that doesn't conform takes its place and is not included; its own mark is the window's.
fn failing() -> Vec<WatchExample> {
    vec![
        watched("x", [1, 1, 0, 1], "0"),
        watched("x", [64, 1, 0, 1], "0"),
        watched("10x", [1, 1, 1, 2], "100"),
        watched("1x", [2, 1, 2, 0], "11"),
        watched("1x", [2, 2, 0, 2], "00"),
        watched("1x1", [2, 2, 0, 3], "000"),
        watched("1x1", [3, 2, 1, 2], "001"),
        watched("11x", [3, 2, 2, 1], "011"),
        watched("11xx", [3, 2, 2, 2], "0110"),
        watched("x1x1x", [3, 2, 1, 4], "00010"),
        watched("xxxxx", [4, 1, 0, 5], "00000"),
        watched("1011x0", [3, 2, 3, 3], "001110"),
        watched("100x1xx", [2, 1, 4, 3], "1100110"),
    ]
}

/// A 1 counts for as many instances as the window has, itself among them, and for none more.
fn leaving() -> Vec<WatchExample> {
    let after = |n: usize| format!("1{}", "0".repeat(n));
    let failed_after = |n: usize| format!("1{}", "x".repeat(n));
    let marks = |ones: usize, zeros: usize| "1".repeat(ones) + &"0".repeat(zeros);
    vec![
        watched("1000", [1, 1, 1, 3], "1000"),
        watched("1000", [2, 1, 2, 2], "1100"),
        watched("1000", [3, 1, 3, 1], "1110"),
        watched("1000", [4, 1, 4, 0], "1111"),
        watched("01000", [2, 1, 2, 3], "01100"),
        watched("1010000", [3, 2, 1, 6], "0010000"),
        watched("1010000", [4, 2, 2, 5], "0011000"),
        watched(&after(61), [63, 1, 62, 0], &marks(62, 0)),
        watched(&after(62), [63, 1, 63, 0], &marks(63, 0)),
        watched(&after(63), [63, 1, 63, 1], &marks(63, 1)),
        watched(&after(63), [64, 1, 64, 0], &marks(64, 0)),
        watched(&after(64), [64, 1, 64, 1], &marks(64, 1)),
        watched(&after(130), [63, 1, 63, 68], &marks(63, 68)),
        watched(&after(130), [64, 1, 64, 67], &marks(64, 67)),
        watched(&failed_after(130), [64, 1, 64, 67], &marks(64, 67)),
        // The first of two leaves.
        watched(&format!("1{}", after(64)), [64, 2, 63, 3], &format!("0{}00", marks(63, 0))),
    ]
}

/// With the need as large as the window, all of the last have to be included.
fn filling() -> Vec<WatchExample> {
    let ones = |n: usize| "1".repeat(n);
    let zeros = |n: usize| "0".repeat(n);
    vec![
        watched(&ones(62), [63, 63, 0, 62], &zeros(62)),
        watched(&ones(64), [63, 63, 2, 62], &(zeros(62) + "11")),
        watched(&ones(63), [64, 64, 0, 63], &zeros(63)),
        watched(&ones(64), [64, 64, 1, 63], &(zeros(63) + "1")),
        watched(&ones(66), [64, 64, 3, 63], &(zeros(63) + "111")),
        watched(&ones(66), [64, 63, 4, 62], &(zeros(62) + "1111")),
        // One that isn't included keeps the mark at 0 for 64 instances.
        watched(&(ones(64) + "0" + &ones(64)), [64, 64, 2, 127], &(zeros(63) + "1" + &zeros(64) + "1")),
        watched(&(ones(64) + "x" + &ones(64)), [64, 64, 2, 127], &(zeros(63) + "1" + &zeros(64) + "1")),
        watched(&(ones(64) + "x" + &ones(64)), [64, 63, 67, 62], &(zeros(62) + &ones(67))),
        watched(&(ones(64) + "x0" + &ones(64)), [64, 63, 5, 125], &(zeros(62) + &ones(3) + &zeros(63) + &ones(2))),
    ]
}

/// Longer than the program's limit for a run, which isn't watch's.
fn long() -> Vec<WatchExample> {
    let plain = "100".repeat(300);
    vec![
        watched(&plain, [1, 1, 300, 600], &plain),
        watched(&plain, [3, 1, 900, 0], &"1".repeat(900)),
        watched(&plain, [3, 2, 0, 900], &"0".repeat(900)),
        watched(&plain, [4, 2, 299, 601], &format!("000{}", "100".repeat(299))),
        // Of 64 in a row 22 are included where the last is, and 21 elsewhere.
        watched(&plain, [64, 22, 279, 621], &format!("{}{}", "0".repeat(63), "100".repeat(279))),
    ]
}

fn marks_beyond() -> Vec<WatchExample> {
    let lent = |plain: &str, totals: [u64; 4], marks: &[u8], left: &[u8]| WatchExample {
        marks: marks.to_vec(),
        left: left.to_vec(),
        ..watched(plain, totals, "")
    };
    vec![
        lent("1011x0", [3, 2, 3, 3], &[9; 7], &[0, 0, 1, 1, 1, 0, 9]),
        lent("11x", [3, 2, 2, 1], &[0, 1, 2, 3, 4, 5], &[0, 1, 1, 3, 4, 5]),
        lent("11x", [3, 2, 2, 1], &[255, 0, 0, 255, 1, 0], &[0, 1, 1, 255, 1, 0]),
        lent("1", [64, 1, 1, 0], &[255; 70], &[&[1][..], &[255; 69]].concat()),
        lent("", [3, 2, 0, 0], &[7, 8], &[7, 8]),
    ]
}

/// Windows and needs of which at least one is out of its range; of some only the lowest bytes are within.
const OUT_OF_RANGE: [(u64, u64); 22] = [
    (0, 0),
    (0, 1),
    (0, 5),
    (0, u64::MAX),
    (65, 0),
    (65, 1),
    (65, 65),
    (65, 66),
    (256 + 3, 2),
    (1 << 32 | 3, 2),
    (u64::MAX, 1),
    (u64::MAX, u64::MAX),
    (1, 0),
    (3, 0),
    (64, 0),
    (1, 2),
    (2, 3),
    (63, 64),
    (64, 65),
    (64, 256 + 1),
    (64, 1 << 32 | 1),
    (64, u64::MAX),
];

/// 42 at 0, before everything else.
fn out_of_range() -> Vec<WatchExample> {
    let refused = |(window, need)| WatchExample {
        window,
        need,
        marks: vec![7, 8, 9, 10],
        left: vec![7, 8, 9, 10],
        expected: Err(Refusal { number: 42, place: 0 }),
        ..watched("10x", [1, 1, 1, 2], "")
    };
    let mut out: Vec<WatchExample> = OUT_OF_RANGE.into_iter().map(refused).collect();
    for range in OUT_OF_RANGE {
        out.push(WatchExample { table: vec![], ..refused(range) });
        out.push(WatchExample { query: b"On = TRUE AND".to_vec(), ..refused(range) });
        out.push(WatchExample { run: vec![0], ..refused(range) });
        out.push(WatchExample { marks: vec![7, 8], left: vec![7, 8], ..refused(range) });
        out.push(WatchExample { run: vec![], marks: vec![], left: vec![], ..refused(range) });
    }
    out
}

/// Each call that mark refuses, with a good window and a bad one.
fn refused_as_mark() -> Vec<WatchExample> {
    let mut out = Vec::new();
    for e in runs::examples() {
        let Err(refusal) = e.expected else { continue };
        let in_range = [(1, 1), (3, 2), (64, 64)].map(|range| (range, refusal));
        let beyond = [(0, 0), (65, 1), (3, 4)].map(|range| (range, Refusal { number: 42, place: 0 }));
        for ((window, need), refusal) in in_range.into_iter().chain(beyond) {
            let (query, table, run, marks) = (e.query.clone(), e.table.clone(), e.run.clone(), e.marks.clone());
            let (left, expected) = (marks.clone(), Err(refusal));
            out.push(WatchExample { query, table, run, window, need, marks, expected, left });
        }
    }
    out
}
