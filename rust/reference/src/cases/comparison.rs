//! Comparisons that the check accepts, and queries of them.

use super::source::{Held, Source};
use super::tokens::{in_any_case, write, Tokens};
use super::{literal, pattern};
use crate::kind::{is_array, type_of};
use crate::random::Random;
use crate::syntax::LENGTH_OF_QUERY;
use crate::value::{Row, Value};

pub fn is_scalar(kind: u16) -> bool {
    !is_array(kind)
}

pub fn equality(r: &mut Random) -> String {
    r.pick(&["=", "=", "<>"]).to_owned()
}

pub fn any_operator(r: &mut Random) -> String {
    r.pick(&["=", "<>", "<", "<=", ">", ">="]).to_owned()
}

fn operator(r: &mut Random, row: Row) -> String {
    if row.has_order() {
        any_operator(r)
    } else {
        equality(r)
    }
}

pub fn quantifier(r: &mut Random) -> Tokens {
    let mut out = Vec::new();
    if r.chance(2) {
        out.push(in_any_case(r, "NOT"));
    }
    let word = r.pick(&["ANY", "EVERY"]);
    out.push(in_any_case(r, word));
    out
}

pub fn like(r: &mut Random) -> Tokens {
    let mut out = Vec::new();
    if r.chance(2) {
        out.push(in_any_case(r, "NOT"));
    }
    out.push(in_any_case(r, "LIKE"));
    out
}

pub fn index(r: &mut Random, n: &str) -> Tokens {
    let zeros = if r.chance(12) { "00" } else { "" };
    vec!["[".to_owned(), format!("{zeros}{n}"), "]".to_owned()]
}

fn any_index(r: &mut Random) -> Tokens {
    let n = match r.below(12) {
        0 => r.pick(&["255", "256", "65534", "65535"]).to_owned(),
        _ => r.below(5).to_string(),
    };
    index(r, &n)
}

/// The path of an array with an index.
pub fn element(r: &mut Random, s: &Source, n: usize) -> Tokens {
    [s.path(r, n), any_index(r)].concat()
}

/// An operator and a scalar after the left side: a literal, a scalar property or, where the grammar has it, an element.
fn operand(r: &mut Random, s: &Source, left: usize, elements: bool) -> Tokens {
    let row = Row::of(s.kind(left));
    let plain = type_of(s.kind(left));
    match r.below(12) {
        0 => return vec![equality(r), literal::null(r)],
        1..=3 => {
            if let Some(n) = s.pick(r, |k| is_scalar(k) && Row::of(k) == row) {
                return [vec![operator(r, row)], s.path(r, n)].concat();
            }
        }
        4 | 5 if elements => {
            if let Some(n) = s.pick(r, |k| is_array(k) && Row::of(k) == row) {
                return [vec![operator(r, row)], element(r, s, n)].concat();
            }
        }
        _ => {}
    }
    let near = s.near(r, left);
    vec![operator(r, row), literal::fitting(r, plain, near.as_deref())]
}

fn scalar(r: &mut Random, s: &Source) -> Option<Tokens> {
    let left = s.pick(r, is_scalar)?;
    Some([s.path(r, left), operand(r, s, left, false)].concat())
}

fn indexed(r: &mut Random, s: &Source) -> Option<Tokens> {
    let left = s.pick(r, is_array)?;
    Some([element(r, s, left), operand(r, s, left, true)].concat())
}

fn quantified(r: &mut Random, s: &Source) -> Option<Tokens> {
    let left = s.pick(r, is_array)?;
    Some([quantifier(r), s.path(r, left), operand(r, s, left, true)].concat())
}

fn arrays(r: &mut Random, s: &Source) -> Option<Tokens> {
    let left = s.pick(r, is_array)?;
    let right = s.pick(r, |k| is_array(k) && Row::of(k) == Row::of(s.kind(left)))?;
    Some([s.path(r, left), vec![equality(r)], s.path(r, right)].concat())
}

fn array_literal(r: &mut Random, s: &Source) -> Option<Tokens> {
    let left = s.pick(r, is_array)?;
    let elements = elements(r, s, left);
    Some([s.path(r, left), vec![equality(r)], braced(&elements)].concat())
}

pub fn braced(elements: &[String]) -> Tokens {
    let mut out = vec!["{".to_owned()];
    for (n, element) in elements.iter().enumerate() {
        if n > 0 {
            out.push(",".to_owned());
        }
        out.push(element.clone());
    }
    out.push("}".to_owned());
    out
}

/// Literals for the elements of an array, most of them as it holds them.
pub fn elements(r: &mut Random, s: &Source, left: usize) -> Vec<String> {
    let plain = type_of(s.kind(left));
    let mut out: Vec<String> = match &s.held[left] {
        Held::Array(Some(held)) if held.len() <= 32 && !r.chance(4) => {
            let exact = |r: &mut Random, body: &Option<Vec<u8>>| match body {
                None => literal::null(r),
                Some(body) => literal::fitting(r, plain, Some(body)),
            };
            held.iter().map(|body| exact(r, body)).collect()
        }
        _ => (0..r.below(5)).map(|_| literal::fitting(r, plain, None)).collect(),
    };
    if r.chance(4) && !out.is_empty() {
        let at = r.below(out.len());
        out[at] = literal::null(r);
    }
    out
}

/// The text of a scalar or of an element, for a pattern to match.
pub fn near_text(r: &mut Random, s: &Source, left: usize) -> String {
    match s.near(r, left).map(|body| Value::decode(type_of(s.kind(left)), &body)) {
        Some(Value::Text(text)) => text,
        _ => String::new(),
    }
}

fn matched(r: &mut Random, s: &Source) -> Option<Tokens> {
    let left = s.pick(r, |k| Row::of(k) == Row::Text)?;
    let near = near_text(r, s, left);
    let text = pattern::well_formed(r, &near);
    let pattern = literal::quoted(r, &text);
    let path = if is_array(s.kind(left)) { element(r, s, left) } else { s.path(r, left) };
    Some([path, like(r), vec![pattern]].concat())
}

/// A comparison of any form that the table has properties for.
pub fn any(r: &mut Random, s: &Source) -> Option<Tokens> {
    (0..300).find_map(|_| match r.below(12) {
        0..=2 => scalar(r, s),
        3 => array_literal(r, s),
        4 => arrays(r, s),
        5 => indexed(r, s),
        6..=9 => quantified(r, s),
        _ => matched(r, s),
    })
}

fn join(r: &mut Random) -> String {
    let word = r.pick(&["AND", "OR"]);
    in_any_case(r, word)
}

/// The comparisons, joined with or without groups.
pub fn joined(r: &mut Random, comparisons: Vec<Tokens>) -> Tokens {
    let grouped = r.chance(3);
    let mut out = Vec::new();
    if grouped {
        out.push("(".to_owned());
    }
    for (n, comparison) in comparisons.into_iter().enumerate() {
        if n > 0 && grouped && r.chance(2) {
            out.extend([")".to_owned(), join(r), "(".to_owned()]);
        } else if n > 0 {
            out.push(join(r));
        }
        out.extend(comparison);
    }
    if grouped {
        out.push(")".to_owned());
    }
    out
}

/// Whether the tokens stay within a query's length, however they are parted.
fn is_short(tokens: &[String]) -> bool {
    tokens.iter().map(|t| t.len() + 2).sum::<usize>() + 4 <= LENGTH_OF_QUERY
}

/// A query that the check accepts, unless the table has no property.
pub fn query(r: &mut Random, s: &Source) -> Vec<u8> {
    query_of(r, s, |r| match r.below(40) {
        0..=19 => 1,
        20..=38 => 2 + r.below(4),
        _ => 6 + r.below(30),
    })
}

/// The same with so many comparisons.
pub fn query_of(r: &mut Random, s: &Source, count: impl Fn(&mut Random) -> usize) -> Vec<u8> {
    let tokens = query_tokens(r, s, count);
    write(r, &tokens).0
}

fn query_tokens(r: &mut Random, s: &Source, count: impl Fn(&mut Random) -> usize) -> Tokens {
    loop {
        let n = count(r);
        let comparisons: Vec<Tokens> = (0..n).filter_map(|_| any(r, s)).collect();
        if comparisons.is_empty() {
            return vec!["Nope".to_owned(), equality(r), literal::any(r)];
        }
        let tokens = joined(r, comparisons);
        if is_short(&tokens) {
            return tokens;
        }
    }
}
