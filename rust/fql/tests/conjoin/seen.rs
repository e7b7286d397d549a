//! What came up among random pairs, so that a test can't pass by trying nothing.

use std::collections::BTreeMap;

use reference::cases::conjoin::ConjoinCase;
use reference::conjoin::{comparisons, conjunction, terms, Term};
use reference::syntax::{parse, Join};
use reference::token::{tokens, Kind};
use reference::ConjoinRefusal;

use crate::common::often::assert_often;

/// The check's numbers for a query.
const NUMBERS: [u64; 10] = [1, 10, 11, 12, 20, 21, 22, 23, 24, 25];

#[derive(Debug, Default)]
pub struct Seen {
    forms: BTreeMap<&'static str, usize>,
    sizes: BTreeMap<&'static str, usize>,
    /// Which of the two queries include an instance.
    verdicts: BTreeMap<[bool; 2], usize>,
    /// By query and number.
    refused: BTreeMap<(u64, u64), usize>,
}

fn add(counts: &mut BTreeMap<&'static str, usize>, what: &'static str, holds: bool) {
    *counts.entry(what).or_default() += usize::from(holds);
}

/// An OR between two comparisons of one group.
fn has_inner_or(query: &[u8]) -> bool {
    parse(query).unwrap().iter().any(|(_, join)| *join == Join::Or)
}

/// A bracket that is no token, so that it stands in a string.
fn has_bracket_in_a_string(query: &[u8]) -> bool {
    let of_tokens = |byte: u8| tokens(query).iter().filter(|token| token.kind == Kind::Symbol(byte)).count();
    let of_bytes = |byte: u8| query.iter().filter(|b| **b == byte).count();
    [b'(', b')'].into_iter().any(|byte| of_bytes(byte) > of_tokens(byte))
}

fn has_reserved_word_after_a_dot(query: &[u8]) -> bool {
    let is_such = |pair: &[_]| matches!(pair, [Kind::Symbol(b'.'), Kind::Reserved(_)]);
    tokens(query).iter().map(|token| token.kind).collect::<Vec<_>>().windows(2).any(is_such)
}

fn has_whitespace_before_closing(query: &[u8]) -> bool {
    let is_such = |at: usize| b"\t\r\n ".contains(&query[at - 1]);
    tokens(query).iter().any(|token| token.kind == Kind::Symbol(b')') && is_such(token.start))
}

impl Seen {
    pub fn add_text(&mut self, case: &ConjoinCase, text: &[u8]) {
        let queries = [&case.first[..], &case.second];
        let [first, second] = queries.map(terms);
        let many_groups = |terms: &[Term]| terms.iter().any(|term| term.len() > 1);
        let bracketed = queries.map(|query| tokens(query)[0].kind == Kind::Symbol(b'('));
        for (what, holds) in [
            ("a term each", first.len() == 1 && second.len() == 1),
            ("terms of the first alone", first.len() > 1 && second.len() == 1),
            ("terms of the second alone", first.len() == 1 && second.len() > 1),
            ("terms of both", first.len() > 1 && second.len() > 1),
            ("groups in a term of the first", many_groups(&first)),
            ("groups in a term of the second", many_groups(&second)),
            ("one bracketed group", bracketed[0] && first.len() == 1 && first[0].len() == 1),
            ("no brackets in the first alone", bracketed == [false, true]),
            ("no brackets in the second alone", bracketed == [true, false]),
            ("no brackets in either", bracketed == [false, false]),
            ("OR inside a group", queries.into_iter().zip(bracketed).any(|(q, b)| b && has_inner_or(q))),
            ("OR without brackets", queries.into_iter().zip(bracketed).any(|(q, b)| !b && has_inner_or(q))),
            ("a bracket in a string", queries.into_iter().any(has_bracket_in_a_string)),
            ("a reserved word after a dot", queries.into_iter().any(has_reserved_word_after_a_dot)),
            ("whitespace in front of a closing bracket", queries.into_iter().any(has_whitespace_before_closing)),
            ("inner line feeds", text.contains(&b'\n')),
            ("a buffer as long as the text", case.buffer.len() == text.len()),
            ("bytes beyond", case.buffer.len() > text.len()),
        ] {
            add(&mut self.forms, what, holds);
        }
        add(&mut self.sizes, "64 comparisons", parse(text).unwrap().len() == 64);
        add(&mut self.sizes, "4,096 bytes", text.len() == 4_096);
    }

    pub fn add_verdicts(&mut self, verdicts: [bool; 2]) {
        *self.verdicts.entry(verdicts).or_default() += 1;
    }

    pub fn add_refusal(&mut self, case: &ConjoinCase, ConjoinRefusal { query, refusal }: ConjoinRefusal) {
        *self.refused.entry((query, refusal.number)).or_default() += 1;
        if query != 0 {
            return;
        }
        let bytes = conjunction(&case.first, &case.second).len();
        let comparisons = comparisons(&case.first, &case.second);
        let short = case.buffer.len() < bytes;
        for (what, holds) in [
            ("65 comparisons", comparisons == 65),
            ("4,097 bytes", bytes == 4_097),
            ("too many comparisons alone", comparisons > 64 && bytes <= 4_096),
            ("too many bytes alone", comparisons <= 64 && bytes > 4_096),
            ("too large, and the buffer too short", refusal.number == 43 && short),
            ("too large, and the buffer long enough", refusal.number == 43 && !short),
            ("a buffer shorter by one byte", refusal.number == 44 && case.buffer.len() + 1 == bytes),
            ("an empty buffer", case.buffer.is_empty()),
        ] {
            add(&mut self.sizes, what, holds);
        }
    }

    pub fn assert_forms(&self) {
        assert_eq!(self.forms.len(), 18);
        for (what, count) in &self.forms {
            assert_often(&[(what, *count, 150)]);
        }
    }

    pub fn assert_sizes(&self) {
        assert_eq!(self.sizes.len(), 10);
        for (what, count) in &self.sizes {
            assert_often(&[(what, *count, 40)]);
        }
    }

    pub fn assert_verdicts(&self) {
        for verdicts in [[true, true], [true, false], [false, true], [false, false]] {
            let count = self.verdicts.get(&verdicts).copied().unwrap_or(0);
            assert_often(&[(&format!("{verdicts:?}"), count, 1_500)]);
        }
    }

    /// Each number for each query that it can come with.
    pub fn assert_numbers(&self) {
        let of_check = [1, 2].into_iter().flat_map(|query| NUMBERS.map(|number| (query, number)));
        for (query, number) in of_check.chain([(1, 2), (1, 3), (0, 43), (0, 44)]) {
            let count = self.refused.get(&(query, number)).copied().unwrap_or(0);
            assert_often(&[(&format!("refused {number} for query {query}"), count, 15)]);
        }
    }
}
