//! Queries by their shape: how many terms, groups of each term and comparisons of each group.

use super::super::comparison::{any, equality};
use super::super::source::Source;
use super::super::tokens::{in_any_case, write, Tokens};
use crate::kind::STRING;
use crate::random::Random;
use crate::syntax::LENGTH_OF_QUERY;

/// The numbers of comparisons in the groups of a term.
type Term = Vec<usize>;

/// Strings that hold what parts groups elsewhere.
const TEXTS: [&str; 8] =
    ["')'", "'('", "') AND ('", "'x) OR (y'", r"'\') OR ('", r"'\\'", "' '", r"'\u0029 OR \u0028'"];

/// A query that the check accepts, unless the table has no property.
pub fn query(r: &mut Random, s: &Source) -> Vec<u8> {
    loop {
        let several = |r: &mut Random| if r.chance(3) { 2 + r.below(3) } else { 1 };
        let term = |r: &mut Random| (0..several(r)).map(|_| few(r)).collect();
        let terms = several(r);
        let shape: Vec<Term> = if r.chance(4) { vec![vec![few(r)]] } else { (0..terms).map(|_| term(r)).collect() };
        let query = of_shape(r, &shape, |r| comparison(r, s));
        if query.len() <= LENGTH_OF_QUERY {
            return query;
        }
    }
}

fn few(r: &mut Random) -> usize {
    match r.below(12) {
        0..=6 => 1,
        7..=10 => 2 + r.below(2),
        _ => 4 + r.below(8),
    }
}

/// A query of so many comparisons in so many terms.
pub fn with_comparisons(
    r: &mut Random,
    terms: usize,
    comparisons: usize,
    any: impl Fn(&mut Random) -> Tokens,
) -> Vec<u8> {
    let mut shape: Vec<Term> = vec![vec![1]; terms];
    for _ in terms..comparisons {
        let at = r.below(terms);
        let term = &mut shape[at];
        match r.chance(2) {
            true => term.push(1),
            false => {
                let group = r.below(term.len());
                term[group] += 1;
            }
        }
    }
    of_shape(r, &shape, any)
}

/// One group by itself has brackets or none.
fn of_shape(r: &mut Random, shape: &[Term], any: impl Fn(&mut Random) -> Tokens) -> Vec<u8> {
    let alone = matches!(shape, [term] if term.len() == 1);
    if alone && r.chance(2) {
        let tokens = group(r, shape[0][0], any);
        return written(r, &tokens);
    }
    let mut tokens = Tokens::new();
    for (n, term) in shape.iter().enumerate() {
        for (m, comparisons) in term.iter().enumerate() {
            match (n, m) {
                (0, 0) => {}
                (_, 0) => tokens.push(in_any_case(r, "OR")),
                _ => tokens.push(in_any_case(r, "AND")),
            }
            let group = group(r, *comparisons, &any);
            tokens.extend([vec!["(".to_owned()], group, vec![")".to_owned()]].concat());
        }
    }
    written(r, &tokens)
}

fn group(r: &mut Random, comparisons: usize, any: impl Fn(&mut Random) -> Tokens) -> Tokens {
    let mut out = any(r);
    for _ in 1..comparisons {
        let join = r.pick(&["AND", "OR"]);
        out.push(in_any_case(r, join));
        out.extend(any(r));
    }
    out
}

/// The text of the tokens, with whitespace of any sort around it now and then.
fn written(r: &mut Random, tokens: &[String]) -> Vec<u8> {
    let text = write(r, tokens).0;
    let outer = |r: &mut Random| r.pick(&["", "", "", " ", "\t", "\r\n", "\n\t \r"]).as_bytes();
    [outer(r), &text, outer(r)].concat()
}

fn comparison(r: &mut Random, s: &Source) -> Tokens {
    if let (0, Some(n)) = (r.below(5), s.pick(r, |kind| kind == STRING)) {
        return [s.path(r, n), vec![equality(r), r.pick(&TEXTS).to_owned()]].concat();
    }
    any(r, s).unwrap_or_else(|| ["Nope", "=", "1"].map(str::to_owned).to_vec())
}

/// One of less than 30 bytes, so that 64 of them are within a query's length.
pub fn short_comparison(r: &mut Random, s: &Source) -> Tokens {
    let is_short = |tokens: &Tokens| tokens.iter().map(String::len).sum::<usize>() < 30;
    (0..100).map(|_| comparison(r, s)).find(is_short).unwrap_or_else(|| comparison(r, s))
}
