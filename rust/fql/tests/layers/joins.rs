//! AND and OR, in groups and between them: every way to join up to six comparisons, with every truth of each.

use fql::record::write;
use fql::types::BOOLEAN;

use crate::ask::{answer, table};

/// What joins a comparison to the next.
#[derive(Clone, Copy, PartialEq, Eq)]
enum Join {
    And,
    Or,
    BetweenGroups(bool),
}

impl Join {
    fn written(self) -> &'static str {
        match self {
            Join::And => " AND ",
            Join::Or => " OR ",
            Join::BetweenGroups(true) => ") AND (",
            Join::BetweenGroups(false) => ") OR (",
        }
    }
}

/// The verdict of some parts and the steps to it: `decider` is the truth of a part after which the rest is skipped.
fn joined(parts: impl Iterator<Item = (bool, u64)>, decider: bool) -> (bool, u64) {
    let mut steps = 0;
    for (holds, more) in parts {
        steps += more;
        if holds == decider {
            return (decider, steps);
        }
    }
    (!decider, steps)
}

/// Comparisons, each with what joins it to the next, parted at one join. A part's last join plays no role in it.
fn parted(list: &[(bool, Join)], at: Join) -> impl Iterator<Item = &[(bool, Join)]> {
    let last = list.len() - 1;
    let mut start = 0;
    (0..list.len()).filter_map(move |n| {
        let ends = n == last || list[n].1 == at;
        ends.then(|| &list[std::mem::replace(&mut start, n + 1)..=n])
    })
}

/// AND binds before OR, in a group and between groups.
fn expected(list: &[(bool, Join)]) -> (bool, u64) {
    let chain = |list: &[(bool, Join)]| joined(list.iter().map(|(holds, _)| (*holds, 1)), false);
    let group = |list: &[(bool, Join)]| joined(parted(list, Join::Or).map(chain), true);
    let groups = |list: &[(bool, Join)]| joined(parted(list, Join::BetweenGroups(true)).map(group), false);
    joined(parted(list, Join::BetweenGroups(false)).map(groups), true)
}

fn written(list: &[(bool, Join)], grouped: bool) -> String {
    let (mut out, last) = (String::new(), list.len() - 1);
    for (n, (holds, join)) in list.iter().enumerate() {
        out += if *holds { "A = TRUE" } else { "A = FALSE" };
        out += if n < last { join.written() } else { "" };
    }
    if grouped {
        format!("({out})")
    } else {
        out
    }
}

const JOINS: [Join; 4] = [Join::And, Join::Or, Join::BetweenGroups(true), Join::BetweenGroups(false)];

/// Every list of this length over the first joins; what stands behind the last comparison is left alone.
fn lists(length: u32, joins: usize) -> impl Iterator<Item = Vec<(bool, Join)>> {
    let digit = move |case: usize, n: u32| JOINS[case / joins.pow(n) % joins];
    let list = move |truths: usize, case: usize| (0..length).map(|n| (truths >> n & 1 == 1, digit(case, n))).collect();
    (0..joins.pow(length - 1)).flat_map(move |case| (0..1 << length).map(move |truths| list(truths, case)))
}

#[test]
fn every_way_to_join_six_comparisons() {
    let (table, instance) = (table(&[BOOLEAN]), write(BOOLEAN, &[1]));
    let mut tried = 0;
    for (length, grouped) in (1..=6).flat_map(|length| [(length, false), (length, true)]) {
        for list in lists(length, if grouped { 4 } else { 2 }) {
            let query = written(&list, grouped);
            assert_eq!(answer(&query, &table, &instance), expected(&list), "{query}");
            tried += 1;
        }
    }
    assert_eq!(tried, 2 * (8usize.pow(6) - 1) / 7 + 2 * (4usize.pow(6) - 1) / 3);
}
