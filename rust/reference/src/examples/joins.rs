//! AND before OR, in a group and between groups, and what is skipped (01, "Meaning" and "Steps").

use super::setting::types;
use super::Example;
use super::Expected::{self, Excluded, Included, Refused};

pub fn examples() -> Vec<Example> {
    let questions: Vec<(String, Expected)> = in_a_group().iter().chain(&between_groups()).map(spelled).collect();
    let mut out = types().ask(&questions);
    out.extend(types().ask(&[
        ("U = 5 OR S LIKE '.*'", Included(1)),
        ("U = 6 OR S LIKE '.*'", Included(7)),
        ("S LIKE 'x' AND ANY Us = 3", Excluded(6)),
        ("S LIKE 'x' OR ANY Us = 14", Included(9)),
        ("Us = {3,15} OR EVERY Us < 5 OR I = -5", Included(7)),
        ("U = 5 OR Zed = 1", Refused(20, 9)),
        ("U = 5 or U = 6 aNd U = 6", Included(1)),
    ]));
    out
}

/// `t` stands for a comparison that holds and `f` for one that doesn't, both of one step.
fn spelled((short, expected): &(&str, Expected)) -> (String, Expected) {
    (short.replace('t', "U = 5").replace('f', "U = 6"), *expected)
}

fn in_a_group() -> Vec<(&'static str, Expected)> {
    vec![
        ("t AND t", Included(2)),
        ("t AND f", Excluded(2)),
        ("f AND t", Excluded(1)),
        ("t OR f", Included(1)),
        ("f OR t", Included(2)),
        ("f OR f", Excluded(2)),
        ("t OR f AND f", Included(1)),
        ("f AND f OR t", Included(2)),
        ("f OR t AND f", Excluded(3)),
        ("t AND f OR t", Included(3)),
        ("t AND t AND f AND t", Excluded(3)),
        ("f OR f OR t OR t", Included(3)),
        ("f AND t OR f AND t", Excluded(2)),
        ("t AND f OR t AND t", Included(4)),
        ("t AND t OR f AND t", Included(2)),
        ("(t AND f OR t)", Included(3)),
    ]
}

fn between_groups() -> Vec<(&'static str, Expected)> {
    vec![
        ("(t) OR (f) AND (f)", Included(1)),
        ("(f) AND (t) OR (t)", Included(2)),
        ("(f) OR (t) AND (f)", Excluded(3)),
        ("(t) AND (f) OR (t)", Included(3)),
        ("(f OR t) AND (t OR f)", Included(3)),
        ("(t OR f) AND (f OR f)", Excluded(3)),
        ("(f AND t) OR (t AND t)", Included(3)),
        ("(f AND t OR t) AND (t)", Included(3)),
        ("(t OR t AND f) AND (f OR f AND t) OR (f) OR (t)", Included(5)),
        ("(f) AND (t OR t) AND (t) OR (f AND t) OR (f)", Excluded(3)),
    ]
}
