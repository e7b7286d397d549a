//! Files with what the program prints (01, "A fan to try", last part; 02, Q-1).

use super::setting::{array, datetime, null, sample, text, truth, uint64};
use crate::kind::{INSTANCE, NULL, STRING, UINT64};
use crate::program::Files;
use crate::record::write;

pub struct ProgramExample {
    pub files: Files,
    pub expected: &'static str,
}

pub fn examples() -> Vec<ProgramExample> {
    let mut out = answered();
    out.extend(unknown_digits());
    out.extend(refused_tables());
    out.extend(refused_queries());
    out.extend(runs());
    out
}

fn tried(table: Vec<u8>, query: &[u8], run: Vec<u8>, expected: &'static str) -> ProgramExample {
    ProgramExample { files: Files { table, query: query.to_vec(), run }, expected }
}

fn run(bodies: &[Vec<u8>]) -> Vec<u8> {
    bodies.iter().flat_map(|body| write(INSTANCE, body)).collect()
}

/// The instances of 01's example.
pub fn sample_run() -> Vec<u8> {
    run(&[sample().instance(), vec![]])
}

const OF_THE_SAMPLE: &str = "\
1 included 1
2 failed 31
total 2 1 0 1
";

const OF_TEN: &str = "\
1 included 1
2 included 1
3 included 1
4 included 1
5 included 1
6 included 1
7 included 1
8 included 1
9 included 1
10 included 1
total 10 10 0 0
";

const OF_EACH_WORD: &str = "\
1 failed 31
2 excluded 1
3 included 1
4 failed 31
5 failed 31
6 excluded 1
total 6 1 2 3
";

/// A line for each instance, and the totals; a run of none has the totals alone.
fn answered() -> Vec<ProgramExample> {
    let tried = |query: &str, run, expected| tried(sample().table(), query.as_bytes(), run, expected);
    let on = sample().instance();
    let off = sample().with("On", truth(false)).instance();
    let long = sample().with("Name", text(&"n".repeat(60_000))).instance();
    let many = sample().with("Dev", array(UINT64, &vec![uint64(9); 256])).instance();
    vec![
        tried("On = TRUE", sample_run(), OF_THE_SAMPLE),
        tried("Dev = {14,3}", sample_run(), "1 excluded 2\n2 failed 31\ntotal 2 0 1 1\n"),
        tried("On = TRUE", vec![], "total 0 0 0 0\n"),
        tried("On = TRUE", run(&[off.clone(), on.clone()]), "1 excluded 1\n2 included 1\ntotal 2 1 1 0\n"),
        tried("On = TRUE", run(&[vec![], off.clone(), on, vec![0], vec![1, 2, 3], off]), OF_EACH_WORD),
        tried("Name LIKE 'n*'", run(&[long]), "1 included 60001\ntotal 1 1 0 0\n"),
        tried("ANY Dev = 8 OR ANY Dev = 9", run(&[many]), "1 included 259\ntotal 1 1 0 0\n"),
        tried("On = NULL\n", run(&vec![null().repeat(6); 10]), OF_TEN),
    ]
}

const OF_FOUR_TIMES: &str = "\
1 excluded 1
2 included 1
3 excluded 1
4 failed 31
total 4 1 2 1
";

/// A moment, the minute before it, the hour that has both, and a minute whose offset has stars.
fn unknown_digits() -> Vec<ProgramExample> {
    let since = |s: &str| sample().with("Since", datetime(s)).instance();
    let times = [
        "20051003112300.000000+000",
        "200510031122**.******+000",
        "2005100311****.******+000",
        "200510031122**.******+***",
    ];
    let query = b"Since < '20051003112300.000000+000'";
    vec![tried(sample().table(), query, run(&times.map(since)), OF_FOUR_TIMES)]
}

fn refused_tables() -> Vec<ProgramExample> {
    let tried = |table, expected| tried(table, b"On = TRUE", sample_run(), expected);
    let long = |n: usize| [sample().table(), vec![0; n - 48]].concat();
    vec![
        tried(vec![], "refused 2 0\n"),
        tried([sample().table(), vec![0]].concat(), "refused 2 48\n"),
        tried(long(8_192), "refused 2 48\n"),
        tried(long(8_193), "refused 2 0\n"),
        tried(long(70_000), "refused 2 0\n"),
        tried([sample().table(), write(STRING, b"TEMP")].concat(), "refused 3 48\n"),
    ]
}

fn refused_queries() -> Vec<ProgramExample> {
    let tried = |query: &[u8], expected| tried(sample().table(), query, sample_run(), expected);
    let blanks = |n: usize| format!("On = TRUE{}", " ".repeat(n - 9)).into_bytes();
    let comparisons = vec!["On = TRUE"; 65].join(" OR ");
    vec![
        tried(&blanks(4_096), OF_THE_SAMPLE),
        tried(&blanks(4_097), "refused 1 0\n"),
        tried(&blanks(70_000), "refused 1 0\n"),
        tried(b"On = TRUE\xff", "refused 10 9\n"),
        tried(b"", "refused 11 0\n"),
        tried(b"On = TRUE AND", "refused 11 13\n"),
        tried(b"Dev ANY 3", "refused 11 4\n"),
        tried(comparisons.as_bytes(), "refused 12 832\n"),
        tried(b"On = TRUE OR Zed = 1", "refused 20 13\n"),
        tried(b"On = TRUE OR Dev = 1", "refused 22 13\n"),
        tried(b"R = 5", "refused 21 0\n"),
        tried(b"Temp < 18446744073709551616", "refused 23 7\n"),
        tried(b"Name LIKE '['", "refused 24 10\n"),
        tried(b"Since = '20051003112233.000000+00'", "refused 25 8\n"),
        tried(b"Since = '20051003112233.000000+00*'", "refused 25 8\n"),
    ]
}

/// A run over 65,536 bytes is 40 at 65536, in 40's turn, whatever it holds.
fn runs() -> Vec<ProgramExample> {
    let tried = |query: &str, run, expected| tried(sample().table(), query.as_bytes(), run, expected);
    // One instance, 65,536 bytes with its four of length and kind.
    let longest = |more: usize| {
        let padding = write(NULL, &vec![0; 65_536 - 4 - 95 - 4 - 4]);
        [run(&[[sample().instance(), padding].concat()]), run(&[vec![]]), vec![0; more]].concat()
    };
    vec![
        tried("On = TRUE", longest(0), OF_THE_SAMPLE),
        tried("On = TRUE", longest(1), "refused 40 65536\n"),
        tried("On = TRUE", longest(100_000), "refused 40 65536\n"),
        tried("On = TRUE AND", longest(1), "refused 11 13\n"),
        tried("On = TRUE", vec![0; 65_536], "refused 40 0\n"),
        tried("On = TRUE", vec![0; 65_537], "refused 40 65536\n"),
        tried("On = TRUE", [sample_run(), vec![0]].concat(), "refused 40 103\n"),
        tried("On = TRUE", [sample_run(), write(0x0301, &[])].concat(), "refused 40 103\n"),
        tried("Zed = 1", vec![0], "refused 20 0\n"),
    ]
}
