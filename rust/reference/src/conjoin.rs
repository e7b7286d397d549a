//! Two queries made into one (02, Q-7), from their tokens: every term of the first beside every term of the second.

use crate::check::check;
use crate::refusal::{require, Refusal};
use crate::syntax::{parse, COMPARISONS, LENGTH_OF_QUERY};
use crate::token::{tokens, Kind, Word};

/// A refusal "with which query it is": 1 or 2, and 0 for one that names neither.
#[derive(Clone, Copy, Debug, PartialEq, Eq)]
pub struct ConjoinRefusal {
    pub query: u64,
    pub refusal: Refusal,
}

/// The texts of its groups, which are joined by AND.
pub type Term<'a> = Vec<&'a [u8]>;

/// Writes a query that holds where both do, and returns its length.
pub fn conjoin(first: &[u8], second: &[u8], table: &[u8], buffer: &mut [u8]) -> Result<usize, ConjoinRefusal> {
    let of = |query| move |refusal| ConjoinRefusal { query, refusal };
    check(first, table).map_err(of(1))?;
    check(second, table).map_err(of(2))?;
    let text = conjunction(first, second);
    let comparisons = comparisons(first, second);
    require(comparisons <= COMPARISONS && text.len() <= LENGTH_OF_QUERY, 43, 0).map_err(of(0))?;
    require(text.len() <= buffer.len(), 44, 0).map_err(of(0))?;
    buffer[..text.len()].copy_from_slice(&text);
    Ok(text.len())
}

/// The text that two accepted queries make, however long.
pub fn conjunction(first: &[u8], second: &[u8]) -> Vec<u8> {
    let bracketed = |group: &&[u8]| [b"(", *group, b")"].concat();
    let term = |groups: &Term| groups.iter().map(bracketed).collect::<Vec<_>>().join(&b" AND "[..]);
    pairs(first, second).iter().map(term).collect::<Vec<_>>().join(&b" OR "[..])
}

/// How many comparisons that text has. A group's text by itself is a query without brackets.
pub fn comparisons(first: &[u8], second: &[u8]) -> usize {
    pairs(first, second).iter().flatten().map(|group| parse(group).unwrap().len()).sum()
}

/// "For each term of the first and each term of the second in order, the first's groups and then the second's."
fn pairs<'a>(first: &'a [u8], second: &'a [u8]) -> Vec<Term<'a>> {
    let (first, second) = (terms(first), terms(second));
    first.iter().flat_map(|a| second.iter().map(move |b| [&a[..], b].concat())).collect()
}

/// An accepted query as "ORed terms of ANDed groups; a query without brackets is one group". An OR inside a group is
/// none between terms.
pub fn terms(query: &[u8]) -> Vec<Term<'_>> {
    let tokens = tokens(query);
    if tokens[0].kind != Kind::Symbol(b'(') {
        return vec![vec![without_outer_whitespace(query)]];
    }
    let mut terms = vec![Term::new()];
    let mut opened = None;
    for token in tokens {
        match token.kind {
            Kind::Symbol(b'(') => opened = Some(token.end),
            Kind::Symbol(b')') => {
                let group = &query[opened.take().unwrap()..token.start];
                terms.last_mut().unwrap().push(without_outer_whitespace(group));
            }
            Kind::Reserved(Word::Or) if opened.is_none() => terms.push(Term::new()),
            _ => {}
        }
    }
    terms
}

fn without_outer_whitespace(text: &[u8]) -> &[u8] {
    let inner = |byte: &u8| !b"\t\r\n ".contains(byte);
    let start = text.iter().position(inner).unwrap_or(text.len());
    let end = text.iter().rposition(inner).map_or(start, |last| last + 1);
    &text[start..end]
}
