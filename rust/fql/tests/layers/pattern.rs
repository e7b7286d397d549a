//! Patterns beside a matcher that backtracks over the syntax tree: which are well-formed, what they match, and the steps.

use fql::record::write;
use fql::types::STRING;
use reference::pattern::Pattern;
use reference::random::{for_each_seed, Random};

use crate::ask::{answer, mark_of, marks, refusal, table};
use crate::quoted::quoted;
use crate::seen::Seen;

fn codes(text: &str) -> Vec<u32> {
    text.chars().map(u32::from).collect()
}

/// A malformed pattern is 24; a well-formed one holds of exactly the texts that the other matcher matches, after one
/// step for each character and one more.
fn hold(r: &mut Random, pattern: &str, texts: &[String], seen: &mut Seen) {
    let (table, literal) = (table(&[STRING]), quoted(r, pattern));
    let Some(read) = Pattern::parse(&codes(pattern)) else {
        let found = refusal(format!("A LIKE {literal}").as_bytes(), &table);
        assert_eq!(found, Some((24, 7)), "{pattern:?}");
        return seen.add("malformed");
    };
    seen.add("well-formed");
    let instances: Vec<Vec<u8>> = texts.iter().map(|text| write(STRING, text.as_bytes())).collect();
    let matched: Vec<bool> = texts.iter().map(|text| read.matches(&codes(text))).collect();
    for (like, negated) in [("LIKE", false), ("NOT LIKE", true)] {
        let found = marks(&format!("A {like} {literal}"), &table, &instances);
        let expected: Vec<u8> = matched.iter().map(|matched| mark_of(*matched != negated)).collect();
        assert_eq!(found, expected, "{like} {pattern:?} on {texts:?}");
    }
    let steps = 1 + texts[0].chars().count() as u64;
    let found = answer(&format!("A LIKE {literal}"), &table, &instances[0]);
    assert_eq!(found, (matched[0], steps), "{pattern:?} on {:?}", texts[0]);
    seen.add_many("matched", matched.iter().filter(|matched| **matched).count());
    seen.add_many("not matched", matched.iter().filter(|matched| !**matched).count());
}

fn soup(r: &mut Random) -> String {
    let alphabet: Vec<char> = "ab.\\()[]|*+?^-é𝄞'".chars().collect();
    let n = r.below(14);
    (0..n).map(|_| r.pick(&alphabet)).collect()
}

fn text(r: &mut Random) -> String {
    let alphabet = ['a', 'b', 'a', 'b', '-', 'é', '𝄞'];
    let n = r.below(9);
    (0..n).map(|_| r.pick(&alphabet)).collect()
}

/// A pattern that is well-formed but for what is nested too deep.
fn grown(r: &mut Random, depth: usize) -> String {
    let mut out = String::new();
    for _ in 0..r.below(4) {
        let item = match r.below(if depth == 0 { 5 } else { 8 }) {
            0 => ".".to_owned(),
            1 => "[a-b]".to_owned(),
            2 => "[^a\\-]".to_owned(),
            3 => "a".to_owned(),
            4 => "b".to_owned(),
            _ => format!("({})", grown(r, depth - 1)),
        };
        out.push_str(&item);
        out.push_str(r.pick(&["", "", "*", "+", "?"]));
    }
    if r.chance(4) {
        out.push('|');
        out.push_str(&grown(r, depth.saturating_sub(1)));
    }
    out
}

fn patterns(r: &mut Random) {
    let mut seen = Seen::default();
    for _ in 0..30_000 {
        let pattern = if r.chance(3) { soup(r) } else { grown(r, 4) };
        let texts: Vec<String> = (0..6).map(|_| text(r)).collect();
        hold(r, &pattern, &texts, &mut seen);
    }
    seen.assert_at_least(&[
        ("well-formed", 20_000),
        ("malformed", 4_000),
        ("matched", 20_000),
        ("not matched", 60_000),
    ]);
}

#[test]
fn random_patterns_and_texts() {
    for_each_seed(patterns);
}

/// So many symbols, characters or groups inside one another, near the limit of each.
fn near_a_limit(r: &mut Random) -> (String, &'static str) {
    let (n, nested) = (58 + r.below(5), 6 + r.below(5));
    match r.below(4) {
        0 => ((0..n).map(|_| r.pick(&["a", ".", "[ab]", "\\.", "b?", "a*", "()a", "|b"])).collect(), "symbols"),
        1 => (format!("[{}]*", r.pick(&["a", "b-", "é"]).repeat(252 + r.below(4))), "characters"),
        2 => ("|".repeat(254 + r.below(5)), "characters"),
        _ => (format!("{}a{}", "(".repeat(nested), r.pick(&[")", ")*", "|b)"]).repeat(nested)), "groups"),
    }
}

fn limits(r: &mut Random) {
    let (mut seen, mut sorts) = (Seen::default(), Seen::default());
    for _ in 0..2_000 {
        let (pattern, sort) = near_a_limit(r);
        sorts.add(sort);
        let texts: Vec<String> = (0..3).map(|_| r.pick(&["a", "ab", "."]).repeat(r.below(62))).collect();
        hold(r, &pattern, &texts, &mut seen);
    }
    sorts.assert_at_least(&[("symbols", 400), ("characters", 800), ("groups", 400)]);
    seen.assert_at_least(&[("well-formed", 800), ("malformed", 600), ("matched", 150), ("not matched", 1_000)]);
}

#[test]
fn patterns_near_the_limits() {
    for_each_seed(limits);
}
