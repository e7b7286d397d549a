//! LIKE on long texts, by patterns whose live symbols are many and seldom the same: what an engine that remembers its
//! steps forgets, and where one that makes states has too many.

mod common;

use common::agree;
use reference::kind::{CLASS, STRING};
use reference::random::{for_each_seed, Random};
use reference::record::write;
use reference::Answer;

const CASES: usize = 120;
/// How often each verdict has to come up.
const LEAST: usize = 25;

const CHARACTERS: [&[char]; 4] = [&['a', 'b'], &['a', 'b', 'é'], &['é', 'à'], &['a', '一', '龥', '\u{10000}']];

/// One of the last characters, at a certain distance from the end, is what it says.
fn window(r: &mut Random, characters: &[char]) -> String {
    let symbol = match r.below(3) {
        0 => format!("[{}-{}]", characters[0], characters[0]),
        1 => format!("[^{}]", r.pick(characters)),
        _ => r.pick(characters).to_string(),
    };
    let behind = r.pick(&[".", ".", "(.|..)", ".?"]).repeat(1 + r.below(14));
    format!("{}{symbol}{behind}", r.pick(&[".*", "(.|..)*", "(.*|..)+"]))
}

fn run(r: &mut Random) {
    let table = [write(CLASS, b"P"), write(STRING, b"S")].concat();
    let mut verdicts = [0; 2];
    for _ in 0..CASES {
        let characters = r.pick(&CHARACTERS);
        let text: String = (0..300 + r.below(300)).map(|_| r.pick(characters)).collect();
        let query = format!("S LIKE '{}'", window(r, characters));
        let found = agree(query.as_bytes(), &table, &write(STRING, text.as_bytes()));
        let Ok(Answer { included, .. }) = found else { panic!("{query}: {found:?}") };
        verdicts[usize::from(included)] += 1;
    }
    println!("excluded and included: {verdicts:?}");
    assert!(verdicts.iter().all(|&n| n >= LEAST), "only {verdicts:?}");
}

#[test]
fn of_windows() {
    for_each_seed(run);
}
