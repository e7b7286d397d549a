//! Runs with the totals and marks that they give (01, after the list of causes; numbers 40 and 41).

use super::setting::{sample, truth};
use crate::kind::{BOOLEAN, INSTANCE, NULL};
use crate::record::write;
use crate::{Refusal, Totals};

pub struct RunExample {
    pub query: Vec<u8>,
    pub table: Vec<u8>,
    pub run: Vec<u8>,
    /// Before the call.
    pub marks: Vec<u8>,
    pub expected: Result<Totals, Refusal>,
    /// After the call.
    pub left: Vec<u8>,
}

pub fn examples() -> Vec<RunExample> {
    let mut out = good();
    out.extend(long());
    out.extend(refused_by_the_check());
    out.extend(undivided());
    out.extend(few_marks());
    out
}

/// The sample, 95 bytes, is included by `On = TRUE`.
pub(super) fn on() -> Vec<u8> {
    sample().instance()
}

pub(super) fn off() -> Vec<u8> {
    sample().with("On", truth(false)).instance()
}

pub(super) fn run(bodies: &[Vec<u8>]) -> Vec<u8> {
    bodies.iter().flat_map(|body| write(INSTANCE, body)).collect()
}

fn marked(run: Vec<u8>, marks: &[u8], totals: [u64; 3], left: &[u8]) -> RunExample {
    let [included, excluded, failed] = totals;
    RunExample {
        query: b"On = TRUE".to_vec(),
        table: sample().table(),
        run,
        marks: marks.to_vec(),
        expected: Ok(Totals { included, excluded, failed }),
        left: left.to_vec(),
    }
}

fn refused(run: Vec<u8>, marks: &[u8], number: u64, place: u64) -> RunExample {
    RunExample { expected: Err(Refusal { number, place }), ..marked(run, marks, [0; 3], marks) }
}

fn good() -> Vec<RunExample> {
    let three = run(&[on(), off(), vec![]]);
    let subclass = |tail: &[u8]| [on(), tail.to_vec()].concat();
    vec![
        marked(three.clone(), &[7; 3], [1, 1, 1], &[1, 0, 255]),
        marked(three.clone(), &[255, 1, 0], [1, 1, 1], &[1, 0, 255]),
        marked(three.clone(), &[7; 4], [1, 1, 1], &[1, 0, 255, 7]),
        marked(three, &[0, 1, 2, 3, 4, 5, 6], [1, 1, 1], &[1, 0, 255, 3, 4, 5, 6]),
        marked(run(&[vec![], off(), off(), on()]), &[9; 4], [1, 2, 1], &[255, 0, 0, 1]),
        marked(vec![], &[], [0, 0, 0], &[]),
        marked(vec![], &[7, 8], [0, 0, 0], &[7, 8]),
        marked(
            run(&[subclass(&[0, 0, 9, 9]), subclass(&[1, 0, 9, 9]), subclass(&[0])]),
            &[7; 3],
            [1, 0, 2],
            &[1, 255, 255],
        ),
        // What stands in a run for an instance of another class.
        marked(run(&[write(INSTANCE, &on()), write(NULL, &[]).repeat(6)]), &[7; 2], [0, 1, 1], &[255, 0]),
    ]
}

/// The longest instances, and a run longer than the program's limit, which isn't the library's.
fn long() -> Vec<RunExample> {
    let longest = [on(), write(0xffff, &vec![0; 65_535 - 95 - 4])].concat();
    let many: Vec<Vec<u8>> = (0..300).map(|n| if n % 3 == 0 { on() } else { off() }).collect();
    let marks: Vec<u8> = (0..300).map(|n| u8::from(n % 3 == 0)).collect();
    vec![
        marked(run(&[longest.clone(), off(), longest]), &[7; 4], [2, 1, 0], &[1, 0, 1, 7]),
        marked(run(&many), &[7; 300], [100, 200, 0], &marks),
        marked(run(&vec![vec![]; 20_000]), &[7; 20_001], [0, 0, 20_000], &[&[255; 20_000][..], &[7]].concat()),
    ]
}

/// The check's refusal comes before 40 and 41, and no mark is written.
fn refused_by_the_check() -> Vec<RunExample> {
    let mut out = Vec::new();
    let twice = [sample().table(), write(BOOLEAN, b"ON")].concat();
    let long = "x".repeat(4_097);
    for (query, table, number, place) in [
        ("On = TRUE", vec![], 2, 0),
        ("On = TRUE", twice, 3, 48),
        (long.as_str(), sample().table(), 1, 0),
        ("On = TRUE AND", sample().table(), 11, 13),
        ("On = TRUE OR Zed = 1", sample().table(), 20, 13),
        ("R = 5", sample().table(), 21, 0),
        ("Dev = 3", sample().table(), 22, 0),
        ("Temp < 18446744073709551616", sample().table(), 23, 7),
        ("Name LIKE '('", sample().table(), 24, 10),
        ("Since = 'x'", sample().table(), 25, 8),
    ] {
        for (run, marks) in [
            (run(&[on(), off()]), &[7, 8, 9][..]),
            (run(&[on(), off()]), &[]),
            (vec![1, 2, 3], &[7, 8, 9]),
            (vec![], &[7]),
        ] {
            let example = refused(run, marks, number, place);
            out.push(RunExample { query: query.as_bytes().to_vec(), table: table.clone(), ..example });
        }
    }
    out
}

/// 40 is placed at the first record at fault; an instance before it isn't marked.
fn undivided() -> Vec<RunExample> {
    let two = run(&[on(), off()]);
    let after = |tail: &[u8]| [&two[..], tail].concat();
    let mut out = Vec::new();
    for (run, place) in [
        (vec![0], 0),
        (vec![0, 0, 0], 0),
        (write(0x0301, &on()), 0),
        (write(0x0003, &on()), 0),
        (on(), 0),
        (sample().table(), 0),
        (two[..197].to_vec(), 99),
        (two[..102].to_vec(), 99),
        (two[..100].to_vec(), 99),
        (after(&[0]), 198),
        (after(&[0, 0, 0]), 198),
        (after(&[0, 0, 0, 0]), 198),
        (after(&[1, 0, 0, 3]), 198),
        (after(&[255, 255, 0, 3, 1]), 198),
        ([write(INSTANCE, &on()), write(NULL, &[]), two.clone()].concat(), 99),
        ([write(INSTANCE, &on()), write(BOOLEAN, &[]), vec![0]].concat(), 99),
    ] {
        out.push(refused(run.clone(), &[7, 8, 9, 10], 40, place));
        // 40 comes before 41.
        out.push(refused(run, &[], 40, place));
    }
    out
}

fn few_marks() -> Vec<RunExample> {
    let three = run(&[on(), off(), vec![]]);
    vec![
        refused(three.clone(), &[7, 8], 41, 0),
        refused(three.clone(), &[7], 41, 0),
        refused(three, &[], 41, 0),
        refused(run(&[vec![]]), &[], 41, 0),
        refused(run(&vec![vec![]; 300]), &[7; 299], 41, 0),
    ]
}
