//! Every pair of queries of up to three comparisons, however they are joined, on every instance of their flags.

use reference::cases::conjoin::ConjoinCase;
use reference::kind::{BOOLEAN, CLASS};
use reference::record::write;

use crate::hold::{conjoin, hold_meaning, hold_text};

const FLAGS: [&str; 6] = ["A", "B", "C", "D", "E", "F"];

/// The flags joined in every way, in groups and without.
fn queries(flags: &[&str]) -> Vec<String> {
    let comparison = |flag: &str| format!("{flag} = TRUE");
    let [first, rest @ ..] = flags else { return Vec::new() };
    let mut open = vec![comparison(first)];
    for flag in rest {
        let joins = [" AND ", " OR ", ") AND (", ") OR ("];
        open = open.iter().flat_map(|query| joins.map(|join| format!("{query}{join}{}", comparison(flag)))).collect();
    }
    let plain = open.iter().filter(|query| !query.contains('(')).cloned();
    let grouped = open.iter().map(|query| format!("({query})"));
    plain.chain(grouped).collect()
}

/// All queries of one, two and three of the flags.
fn all_queries(flags: &[&str]) -> Vec<String> {
    (1..=3).flat_map(|count| queries(&flags[..count])).collect()
}

fn instances() -> Vec<Vec<u8>> {
    let flag = |number: usize, n: usize| write(BOOLEAN, &[(number >> n & 1) as u8]);
    (0..1 << FLAGS.len()).map(|number| (0..FLAGS.len()).flat_map(|n| flag(number, n)).collect()).collect()
}

#[test]
fn every_pair_of_three_comparisons() {
    let flags = FLAGS.map(|name| write(BOOLEAN, name.as_bytes())).concat();
    let table = [write(CLASS, b"P"), flags].concat();
    let instances = instances();
    let mut tried = 0;
    for first in all_queries(&FLAGS[..3]) {
        for second in all_queries(&FLAGS[3..]) {
            let (first, second) = (first.clone().into_bytes(), second.into_bytes());
            let case = ConjoinCase { first, second, table: table.clone(), buffer: vec![7; 400], instances: vec![] };
            let (found, left) = conjoin(&case, &case.buffer);
            let length = found.unwrap();
            hold_text(&case, length, &left);
            for instance in &instances {
                hold_meaning(&case, &left[..length], instance);
                tried += 1;
            }
        }
    }
    // Without brackets 1 + 2 + 4, with them 1 + 4 + 16.
    assert_eq!(tried, 28 * 28 * 64);
}
