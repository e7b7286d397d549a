//! Pairs whose text is just within the limits of a query or just beyond them.

use super::super::source::Source;
use super::shape::{query, short_comparison, with_comparisons};
use crate::conjoin::{conjunction, terms};
use crate::random::Random;
use crate::syntax::{COMPARISONS, LENGTH_OF_QUERY};
use crate::token::{tokens, Kind, Word};

/// About 64 comparisons: those of each query once for each term of the other.
pub fn comparisons(r: &mut Random, s: &Source) -> [Vec<u8>; 2] {
    let wanted = COMPARISONS - 1 + r.below(4);
    loop {
        let [a, b] = [1 + r.below(4), 1 + r.below(4)];
        let of_first = a + r.below(wanted / b);
        let of_second = wanted.saturating_sub(b * of_first) / a;
        if of_first <= COMPARISONS && (b..=COMPARISONS).contains(&of_second) {
            let few: Vec<_> = (0..4).map(|_| short_comparison(r, s)).collect();
            let any = |r: &mut Random| few[r.below(few.len())].clone();
            return [with_comparisons(r, a, of_first, any), with_comparisons(r, b, of_second, any)];
        }
    }
}

/// About 4,096 bytes, by blanks between two tokens of a group, which stay.
pub fn bytes(r: &mut Random, s: &Source) -> [Vec<u8>; 2] {
    let [first, second] = [query(r, s), query(r, s)];
    let wanted = LENGTH_OF_QUERY - 1 + r.below(4);
    let missing = wanted.saturating_sub(conjunction(&first, &second).len());
    let [a, b] = [&first, &second].map(|query| terms(query).len());
    // A blank more in one of them is one more for each term of the other.
    let in_second =
        (0..b).find(|blanks| missing >= a * blanks && (missing - a * blanks).is_multiple_of(b)).unwrap_or(0);
    let in_first = (missing - a * in_second) / b;
    [stretched(&first, in_first), stretched(&second, in_second)]
}

/// The query with so many blanks behind its first operator.
fn stretched(query: &[u8], blanks: usize) -> Vec<u8> {
    let is_operator = |kind| matches!(kind, Kind::Compare(_) | Kind::Reserved(Word::Like));
    let at = tokens(query).iter().find(|token| is_operator(token.kind)).map_or(0, |token| token.end);
    [&query[..at], &vec![b' '; blanks], &query[at..]].concat()
}
