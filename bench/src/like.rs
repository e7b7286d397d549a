//! LIKE beside RE2 and the tuned engine on the same patterns and texts, over the whole text. The engine is called as an
//! agent calls it: mark over a run of instances with one string each. RE2 has its pattern compiled before the clock in
//! one column and inside it in the other, as the engine reads it in each call.

use crate::clock::{compare, Contestant};
use crate::re2::Pattern;
use crate::score::{cells, Score};
use reference::kind::{CLASS, INSTANCE, STRING};
use reference::record::write;
use tuned::Program;

const TEXTS: usize = 64;
const PEERS: [&str; 3] = ["LIKE: tuned, parsed before", "LIKE: RE2, compiled before", "LIKE: RE2"];

/// A pattern, what its fitting texts consist of, and what the others do.
struct Row {
    pattern: &'static str,
    fitting: fn(usize) -> String,
    other: &'static str,
}

fn cut(text: String, characters: usize) -> String {
    text.chars().take(characters).collect()
}

fn rows() -> Vec<Row> {
    let fan = |n: usize| cut(format!("FAN_{}", "12".repeat(n)), n);
    vec![
        Row { pattern: "FAN_.*", fitting: |n| cut("FAN_".repeat(n), n), other: "x-9" },
        Row { pattern: "[A-Z]+_[0-9]+", fitting: fan, other: "x-9" },
        Row { pattern: "(FAN|PUMP)_(0|1|2|3)*", fitting: fan, other: "x-9" },
        Row { pattern: ".*a.*b.*c.*", fitting: |n| cut("xaybzc".repeat(n), n), other: "x-9" },
        Row { pattern: "(a|b|ab)*c?", fitting: |n| cut("ab".repeat(n), n), other: "x-9" },
        Row { pattern: ".*[é-ü].*", fitting: |n| cut("naïve façade ".repeat(n), n), other: "plain " },
        Row { pattern: "(В|Е|Н|Т)*", fitting: |n| cut("ВЕНТ".repeat(n), n), other: "ВЕНТИЛ" },
        Row { pattern: "[一-龥]+", fitting: |n| cut("風扇速度過高".repeat(n), n), other: "風扇 " },
    ]
}

pub fn run(score: &mut Score) {
    println!("\nLIKE, {TEXTS} texts a run: nanoseconds for each text");
    print!("{:24}{:>8}{:>10}{:>12}{:>8}", "pattern", "length", "engine", "tuned", "ratio");
    println!("{:>12}{:>8}{:>12}{:>8}", "RE2 before", "ratio", "RE2 inside", "ratio");
    for row in rows() {
        for length in [10, 100, 1_000] {
            compare_on(score, &row, length);
        }
    }
}

fn compare_on(score: &mut Score, row: &Row, length: usize) {
    let pattern = row.pattern;
    // Every second text fits as far as it goes.
    let text =
        |n: usize| if n.is_multiple_of(2) { (row.fitting)(length) } else { cut(row.other.repeat(length), length) };
    let texts: Vec<String> = (0..TEXTS).map(text).collect();
    let table = [write(CLASS, b"T"), write(STRING, b"S")].concat();
    let run: Vec<u8> = texts.iter().flat_map(|t| write(INSTANCE, &write(STRING, t.as_bytes()))).collect();
    let query = format!("S LIKE '{pattern}'").into_bytes();
    let (compiled, mut program) = (Pattern::compile(pattern), Program::new(&query, &table).unwrap());
    let [mut marks, mut others] = [[0; TEXTS]; 2];
    fql::mark(&query, &table, &run, &mut marks).unwrap();
    program.mark(&run, &mut others).unwrap();
    assert_eq!(marks, others, "{pattern}");
    for (mark, text) in marks.iter().zip(&texts) {
        assert_eq!(*mark == 1, compiled.matches(text), "{pattern} on {text}");
    }
    let count = |pattern: &Pattern| texts.iter().filter(|t| pattern.matches(t)).count() as u64;
    let times = compare(&mut [
        Contestant::new(|| fql::mark(&query, &table, &run, &mut marks).unwrap().included),
        Contestant::new(|| program.mark(&run, &mut others).unwrap().included),
        Contestant::new(|| count(&compiled)),
        Contestant::new(|| count(&Pattern::compile(pattern))),
    ]);
    let each: Vec<f64> = times.iter().map(|time| time / TEXTS as f64).collect();
    print!("{pattern:24}{length:>8}{:>10.0}", each[0]);
    for (peer, &time) in PEERS.into_iter().zip(&each[1..]) {
        print!("{}", cells(Some((time, score.add(peer, &format!("{pattern} on {length}"), each[0], time)))));
    }
    println!();
}
