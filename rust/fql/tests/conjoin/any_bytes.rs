//! Bytes of any content and length as either query and as the table.

use reference::examples::setting::sample;
use reference::random::{for_each_seed, Random};

use crate::common::agree_on_conjoin;

const LENGTHS: [usize; 9] = [0, 1, 2, 40, 4_095, 4_096, 4_097, 8_193, 70_000];

/// Any bytes, or one byte again and again, or those of queries.
fn bytes(r: &mut Random, length: usize) -> Vec<u8> {
    let byte = r.byte();
    match r.below(4) {
        0 => (0..length).map(|_| r.byte()).collect(),
        1 => vec![byte; length],
        2 => (0..length).map(|_| r.pick(b"() \t\r\n'\\=.ANDORandor15")).collect(),
        _ => b"(On = TRUE) OR ".iter().copied().cycle().take(length).collect(),
    }
}

/// Neither query is accepted, or the table isn't: the buffer stays, and the first fault is told.
fn run(r: &mut Random) {
    let table = sample().table();
    let mut of_queries = [0; 3];
    for first in LENGTHS {
        for second in LENGTHS {
            for buffer in [0, 1, 5_000] {
                let (first, second) = (bytes(r, first), bytes(r, second));
                let other = bytes(r, first.len());
                for (first, second, table) in [
                    (&first[..], &second[..], &table[..]),
                    (b"On = TRUE", &second, &table),
                    (&first, b"On = TRUE", &table),
                    (&first, &second, &other),
                    (b"On = TRUE", b"On = TRUE", &other),
                ] {
                    let buffer = vec![r.byte(); buffer];
                    let (found, left) = agree_on_conjoin(first, second, table, &buffer);
                    of_queries[found.unwrap_err().query as usize] += 1;
                    assert_eq!(left, buffer);
                }
            }
        }
    }
    println!("refused for query 0, 1 and 2: {of_queries:?}");
    assert!(of_queries[0] == 0 && of_queries[1] >= 900 && of_queries[2] >= 200);
}

#[test]
fn of_any_bytes() {
    for_each_seed(run);
}
