//! Comparisons that fail for one cause, which is the first in 01's order whatever else is wrong with them. The token at
//! the refusal's place is marked.

use super::comparison::{any_operator, braced, element, elements, equality, index, is_scalar, like, quantifier};
use super::source::Source;
use super::table::unknown_word;
use super::tokens::{in_any_case, marked, marked_first, Tokens};
use super::{datetime, literal, pattern};
use crate::kind::{is_array, ARRAY, BOOLEAN, DATETIME, OCTETS, REAL64, STRING};
use crate::random::Random;
use crate::value::Row;

/// A comparison refused with this number, 20 to 25, over a table with all types.
pub fn comparison(r: &mut Random, s: &Source, number: u64) -> Tokens {
    match number {
        20 => unknown_name(r, s),
        21 => marked_first(if r.chance(2) { wrong_row(r, s) } else { wrong_operator(r, s) }),
        22 => marked_first(if r.chance(2) { wrong_left(r, s) } else { wrong_right(r, s) }),
        23 => out_of_range(r, s),
        24 => malformed_pattern(r, s),
        25 => malformed_datetime(r, s),
        other => panic!("{other} isn't a comparison's refusal"),
    }
}

fn any_path(r: &mut Random, s: &Source) -> Tokens {
    let n = r.below(s.table.properties.len());
    s.path(r, n)
}

fn scalar(r: &mut Random, s: &Source) -> Tokens {
    let n = s.pick(r, is_scalar).unwrap();
    s.path(r, n)
}

fn array(r: &mut Random, s: &Source) -> Tokens {
    let n = s.pick(r, is_array).unwrap();
    s.path(r, n)
}

fn any_index(r: &mut Random) -> Tokens {
    let n = r.pick(&["0", "1", "65535", "65536", "70000"]);
    index(r, n)
}

fn any_pattern(r: &mut Random) -> String {
    let text = if r.chance(2) { pattern::malformed(r) } else { pattern::well_formed(r, "a") };
    literal::quoted(r, &text)
}

fn any_literals(r: &mut Random) -> Tokens {
    let n = r.below(4);
    let elements: Vec<String> = (0..n).map(|_| literal::any(r)).collect();
    braced(&elements)
}

/// A path that names no property, marked.
fn unknown_path(r: &mut Random, s: &Source) -> Tokens {
    let unknown = unknown_word(r, &s.table);
    let class = String::from_utf8(s.table.class.clone()).unwrap();
    let dot = || ".".to_owned();
    let known = any_path(r, s).pop().unwrap();
    marked_first(match r.below(6) {
        0 => vec![unknown, dot(), known],
        1 => vec![in_any_case(r, &class), dot(), unknown],
        2 => vec![in_any_case(r, &class), dot(), known, dot(), r.pick(&["x", "And", "Temp"]).to_owned()],
        3 => vec![unknown, dot(), r.pick(&["AND", "null", "Like"]).to_owned()],
        _ => vec![unknown],
    })
}

fn unknown_name(r: &mut Random, s: &Source) -> Tokens {
    let unknown = unknown_path(r, s);
    let operator = vec![any_operator(r)];
    match r.below(8) {
        0 => [quantifier(r), unknown, operator, vec![literal::any(r)]].concat(),
        1 => [any_path(r, s), operator, unknown].concat(),
        2 => [quantifier(r), any_path(r, s), operator, unknown].concat(),
        3 => [any_path(r, s), any_index(r), operator, unknown, any_index(r)].concat(),
        4 => [unknown, any_index(r), operator, any_path(r, s)].concat(),
        5 => [unknown, like(r), vec![any_pattern(r)]].concat(),
        6 => [unknown, vec![equality(r)], any_literals(r)].concat(),
        _ => [unknown, operator, vec![literal::any(r)]].concat(),
    }
}

/// 22 for what stands on the left.
fn wrong_left(r: &mut Random, s: &Source) -> Tokens {
    let operator = vec![any_operator(r)];
    match r.below(5) {
        0 => [scalar(r, s), any_index(r), operator, vec![literal::any(r)]].concat(),
        1 => [scalar(r, s), any_index(r), like(r), vec![any_pattern(r)]].concat(),
        2 => [quantifier(r), scalar(r, s), operator, vec![literal::any(r)]].concat(),
        3 => [quantifier(r), scalar(r, s), operator, any_path(r, s)].concat(),
        _ => [array(r, s), like(r), vec![any_pattern(r)]].concat(),
    }
}

/// 22 for what stands on the right.
fn wrong_right(r: &mut Random, s: &Source) -> Tokens {
    let operator = vec![any_operator(r)];
    match r.below(8) {
        0 => [scalar(r, s), vec![equality(r)], any_literals(r)].concat(),
        1 => [array(r, s), operator, vec![literal::any(r)]].concat(),
        2 => [array(r, s), operator, scalar(r, s)].concat(),
        3 => [scalar(r, s), operator, array(r, s)].concat(),
        4 => [array(r, s), any_index(r), operator, array(r, s)].concat(),
        5 => [quantifier(r), array(r, s), operator, array(r, s)].concat(),
        6 => [array(r, s), any_index(r), operator, scalar(r, s), any_index(r)].concat(),
        _ => [quantifier(r), array(r, s), operator, scalar(r, s), any_index(r)].concat(),
    }
}

/// A literal that doesn't fit the row; it may be out of range besides.
fn unfitting(r: &mut Random, row: Row) -> String {
    loop {
        let literal = match r.below(8) {
            0 => ("signed hex", literal::signed_hex(r)),
            1 => ("real", literal::beyond_reals(r)),
            2 => ("decimal", "99999999999999999999".to_owned()),
            3 => ("truth", literal::fitting(r, BOOLEAN, None)),
            4 => ("decimal", r.below(100).to_string()),
            5 => ("real", literal::fitting(r, REAL64, None)),
            6 => ("hex", literal::fitting(r, OCTETS, None)),
            _ => ("text", literal::fitting(r, STRING, None)),
        };
        let fits = match row {
            Row::Truth => literal.0 == "truth",
            Row::Integer => matches!(literal.0, "decimal" | "hex" | "signed hex"),
            Row::Real => literal.0 == "real",
            Row::Octets => literal.0 == "hex",
            Row::Text | Row::Datetime | Row::Reference => literal.0 == "text",
        };
        if !fits {
            return literal.1;
        }
    }
}

/// 21 for two rows.
fn wrong_row(r: &mut Random, s: &Source) -> Tokens {
    let left = r.below(s.table.properties.len());
    let row = Row::of(s.kind(left));
    let other = |r: &mut Random, array: bool| s.pick(r, |k| is_array(k) == array && Row::of(k) != row).unwrap();
    let operator = vec![any_operator(r)];
    if !is_array(s.kind(left)) {
        return match r.chance(2) {
            true => [s.path(r, left), operator, vec![unfitting(r, row)]].concat(),
            false => {
                let right = other(r, false);
                [s.path(r, left), operator, s.path(r, right)].concat()
            }
        };
    }
    let start =
        if r.chance(2) { [s.path(r, left), any_index(r)].concat() } else { [quantifier(r), s.path(r, left)].concat() };
    let (scalar, array) = (other(r, false), other(r, true));
    match r.below(5) {
        0 => [start, operator, vec![unfitting(r, row)]].concat(),
        1 => [start, operator, s.path(r, scalar)].concat(),
        2 => [start, operator, s.path(r, array), any_index(r)].concat(),
        3 => [s.path(r, left), operator, s.path(r, array)].concat(),
        _ => {
            let mut list = elements(r, s, left);
            let at = r.below(list.len().min(31) + 1);
            list.truncate(31);
            list.insert(at, unfitting(r, row));
            [s.path(r, left), vec![equality(r)], braced(&list)].concat()
        }
    }
}

/// 21 for the operator.
fn wrong_operator(r: &mut Random, s: &Source) -> Tokens {
    let order = vec![r.pick(&["<", "<=", ">", ">="]).to_owned()];
    let unordered = s.pick(r, |k| is_scalar(k) && !Row::of(k).has_order()).unwrap();
    let (a, b) = (s.pick(r, is_array).unwrap(), s.pick(r, is_array).unwrap());
    let unlike = s.pick(r, |k| Row::of(k) != Row::Text).unwrap();
    match r.below(6) {
        0 => [s.path(r, unordered), order, vec![literal::fitting(r, s.kind(unordered), None)]].concat(),
        1 => [s.path(r, unordered), order, s.path(r, unordered)].concat(),
        2 => [scalar(r, s), order, vec![literal::null(r)]].concat(),
        3 => [quantifier(r), s.path(r, a), order, vec![literal::null(r)]].concat(),
        4 => [s.path(r, a), order, s.path(r, b)].concat(),
        _ if is_array(s.kind(unlike)) => [s.path(r, unlike), any_index(r), like(r), vec![any_pattern(r)]].concat(),
        _ => [s.path(r, unlike), like(r), vec![any_pattern(r)]].concat(),
    }
}

fn bad_index(r: &mut Random) -> Tokens {
    let n = r.pick(&["65536", "65537", "70000", "000065536", "4294967296", "18446744073709551616"]);
    vec!["[".to_owned(), marked(n), "]".to_owned()]
}

fn bad_number(r: &mut Random, row: Row) -> String {
    match row {
        Row::Integer => literal::beyond_integers(r),
        _ => literal::beyond_reals(r),
    }
}

fn out_of_range(r: &mut Random, s: &Source) -> Tokens {
    let numeric = |k: u16| matches!(Row::of(k), Row::Integer | Row::Real);
    let left = s.pick(r, |k| is_array(k) && numeric(k)).unwrap();
    let one = s.pick(r, |k| is_scalar(k) && numeric(k)).unwrap();
    let row = Row::of(s.kind(left));
    let other = s.pick(r, |k| is_array(k) && Row::of(k) == row).unwrap();
    let text = s.pick(r, |k| is_array(k) && Row::of(k) == Row::Text).unwrap();
    let operator = vec![any_operator(r)];
    let bad = bad_number(r, row);
    match r.below(8) {
        0 => [s.path(r, left), vec![equality(r)], list_with(r, s, left, &bad)].concat(),
        1 => [quantifier(r), s.path(r, left), operator, vec![marked(&bad)]].concat(),
        2 => [s.path(r, left), bad_index(r), operator, vec![bad]].concat(),
        3 => [element(r, s, left), operator, s.path(r, other), bad_index(r)].concat(),
        4 => [quantifier(r), s.path(r, left), operator, s.path(r, other), bad_index(r)].concat(),
        5 => [s.path(r, text), bad_index(r), like(r), vec![any_pattern(r)]].concat(),
        _ => {
            let bad = bad_number(r, Row::of(s.kind(one)));
            [s.path(r, one), operator, vec![marked(&bad)]].concat()
        }
    }
}

/// An array literal with one literal marked among good ones, and the same bad one again after it.
fn list_with(r: &mut Random, s: &Source, left: usize, bad: &str) -> Tokens {
    let mut list = elements(r, s, left);
    list.truncate(30);
    let at = r.below(list.len() + 1);
    list.insert(at, marked(bad));
    if r.chance(3) {
        list.push(bad.to_owned());
    }
    braced(&list)
}

fn malformed_pattern(r: &mut Random, s: &Source) -> Tokens {
    let left = s.pick(r, |k| Row::of(k) == Row::Text).unwrap();
    let path = if is_array(s.kind(left)) { element(r, s, left) } else { s.path(r, left) };
    let text = pattern::malformed(r);
    let literal = literal::quoted(r, &text);
    [path, like(r), vec![marked(&literal)]].concat()
}

fn malformed_datetime(r: &mut Random, s: &Source) -> Tokens {
    let one = s.pick(r, |k| k == DATETIME).unwrap();
    let many = s.pick(r, |k| k == ARRAY | DATETIME).unwrap();
    let operator = vec![any_operator(r)];
    let text = datetime::malformed(r);
    let bad = literal::quoted(r, &text);
    match r.below(4) {
        0 => [s.path(r, many), vec![equality(r)], list_with(r, s, many, &bad)].concat(),
        1 => [quantifier(r), s.path(r, many), operator, vec![marked(&bad)]].concat(),
        2 => [element(r, s, many), operator, vec![marked(&bad)]].concat(),
        _ => [s.path(r, one), operator, vec![marked(&bad)]].concat(),
    }
}
