//! Comparisons by the grammar, with any property in any place beside any literal: most fail, some for several causes.

use super::comparison::{any_operator, braced, element, equality, index, like, quantifier};
use super::source::Source;
use super::table::unknown_word;
use super::tokens::Tokens;
use super::{datetime, literal, pattern};
use crate::random::Random;

fn path(r: &mut Random, s: &Source) -> Tokens {
    match r.chance(12) {
        true => vec![unknown_word(r, &s.table)],
        false => {
            let n = r.below(s.table.properties.len());
            s.path(r, n)
        }
    }
}

fn indexed(r: &mut Random, s: &Source) -> Tokens {
    if r.chance(6) {
        return [path(r, s), index(r, "65536")].concat();
    }
    let n = r.below(s.table.properties.len());
    element(r, s, n)
}

fn any_literal(r: &mut Random) -> String {
    match r.chance(8) {
        true => {
            let text = datetime::malformed(r);
            literal::quoted(r, &text)
        }
        false => literal::any(r),
    }
}

fn elements(r: &mut Random) -> Tokens {
    let n = r.below(4);
    let elements: Vec<String> = (0..n).map(|_| any_literal(r)).collect();
    braced(&elements)
}

fn any_pattern(r: &mut Random) -> String {
    let text = if r.chance(3) { pattern::malformed(r) } else { pattern::well_formed(r, "ab") };
    literal::quoted(r, &text)
}

pub fn comparison(r: &mut Random, s: &Source) -> Tokens {
    let operator = vec![any_operator(r)];
    match r.below(9) {
        0 => [path(r, s), operator, vec![any_literal(r)]].concat(),
        1 => [path(r, s), operator, path(r, s)].concat(),
        2 => [path(r, s), vec![equality(r)], elements(r)].concat(),
        3 => [indexed(r, s), operator, vec![any_literal(r)]].concat(),
        4 => [indexed(r, s), operator, if r.chance(2) { path(r, s) } else { indexed(r, s) }].concat(),
        5 => [quantifier(r), path(r, s), operator, vec![any_literal(r)]].concat(),
        6 => [quantifier(r), path(r, s), operator, if r.chance(2) { path(r, s) } else { indexed(r, s) }].concat(),
        7 => [path(r, s), like(r), vec![any_pattern(r)]].concat(),
        _ => [indexed(r, s), like(r), vec![any_pattern(r)]].concat(),
    }
}
