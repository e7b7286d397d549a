//! Pairs of queries with the one text that they make, and pairs that make none (02, Q-7).

use super::setting::{types, uint64, Setting};
use crate::kind::{BOOLEAN, UINT64};
use crate::record::write;
use crate::{ConjoinRefusal, Refusal};

pub struct ConjoinExample {
    pub first: Vec<u8>,
    pub second: Vec<u8>,
    pub table: Vec<u8>,
    /// Before the call.
    pub buffer: Vec<u8>,
    pub expected: Result<usize, ConjoinRefusal>,
    /// After the call.
    pub left: Vec<u8>,
}

pub fn examples() -> Vec<ConjoinExample> {
    let mut out = one_group_each();
    out.extend(outer_whitespace());
    out.extend(terms_and_groups());
    out.extend(strings());
    out.extend(reserved_words_after_a_dot());
    out.extend(so_many_comparisons());
    out.extend(so_many_bytes());
    out.extend(buffers());
    out.extend(faults());
    out.extend(faults_of_the_table());
    out.extend(faults_before_sizes());
    out
}

/// The text, and three bytes beyond it that keep their values.
fn joined(first: &str, second: &str, text: &str) -> ConjoinExample {
    let beyond = [0, 7, 255];
    ConjoinExample {
        first: first.as_bytes().to_vec(),
        second: second.as_bytes().to_vec(),
        table: types().table(),
        buffer: [vec![7; text.len()], beyond.to_vec()].concat(),
        expected: Ok(text.len()),
        left: [text.as_bytes(), &beyond].concat(),
    }
}

/// For which query, with which number and at which place; a buffer with room for any text keeps its bytes.
fn refused(first: &[u8], second: &[u8], [query, number, place]: [u64; 3]) -> ConjoinExample {
    let buffer: Vec<u8> = (0..=255).cycle().take(4_096).collect();
    ConjoinExample {
        first: first.to_vec(),
        second: second.to_vec(),
        table: types().table(),
        buffer: buffer.clone(),
        expected: Err(ConjoinRefusal { query, refusal: Refusal { number, place } }),
        left: buffer,
    }
}

fn too_large(first: &str, second: &str) -> ConjoinExample {
    refused(first.as_bytes(), second.as_bytes(), [0, 43, 0])
}

impl ConjoinExample {
    fn under(self, table: Vec<u8>) -> ConjoinExample {
        ConjoinExample { table, ..self }
    }

    /// A refusal that leaves so many bytes as they were.
    fn with_buffer(self, length: usize) -> ConjoinExample {
        let buffer = vec![7; length];
        ConjoinExample { buffer: buffer.clone(), left: buffer, ..self }
    }
}

/// What stands in a group stays as it is, an OR too.
fn one_group_each() -> Vec<ConjoinExample> {
    vec![
        joined("U = 1", "I = 2", "(U = 1) AND (I = 2)"),
        joined("(U = 1)", "I = 2", "(U = 1) AND (I = 2)"),
        joined("U = 1", "(I = 2)", "(U = 1) AND (I = 2)"),
        joined("(U = 1)", "(I = 2)", "(U = 1) AND (I = 2)"),
        joined("I = 2", "U = 1", "(I = 2) AND (U = 1)"),
        joined("U = 1", "U = 1", "(U = 1) AND (U = 1)"),
        joined("U = 1 OR U = 2", "I = 2", "(U = 1 OR U = 2) AND (I = 2)"),
        joined("I = 2", "(U = 1 OR U = 2)", "(I = 2) AND (U = 1 OR U = 2)"),
        joined("U = 1 oR I=2 and B = tRuE", "(I=3 Or U=4)", "(U = 1 oR I=2 and B = tRuE) AND (I=3 Or U=4)"),
        joined("Us = {3 , 14}", "NOT ANY Us = 1", "(Us = {3 , 14}) AND (NOT ANY Us = 1)"),
        joined("Us[0]=Us [ 1 ]", "S NOT LIKE'a|b'", "(Us[0]=Us [ 1 ]) AND (S NOT LIKE'a|b')"),
        joined("S = '\u{e9}'", "S <> '\u{1d11e}'", "(S = '\u{e9}') AND (S <> '\u{1d11e}')"),
    ]
}

/// Around a query, around its brackets and inside them it goes; between the tokens of a group it stays.
fn outer_whitespace() -> Vec<ConjoinExample> {
    let blanks = " ".repeat(4_091);
    vec![
        joined(" U = 1 ", "  I = 2  ", "(U = 1) AND (I = 2)"),
        joined("\tU = 1\t", "\rI = 2\r", "(U = 1) AND (I = 2)"),
        joined("\nU = 1\n", "\t\r\n I = 2 \n\r\t", "(U = 1) AND (I = 2)"),
        joined("( U = 1 )", "(\tI = 2\r\n)", "(U = 1) AND (I = 2)"),
        joined(" \t( \r\nU = 1\n ) \r", "I = 2", "(U = 1) AND (I = 2)"),
        joined("U  =\t1", "(\nI\r\n=\n2\n)", "(U  =\t1) AND (I\r\n=\n2)"),
        joined("U=1", "I=2", "(U=1) AND (I=2)"),
        joined(&format!("{blanks}U = 1"), &format!("I = 2{blanks}"), "(U = 1) AND (I = 2)"),
        joined("( U = 1\n)\tor( I = 2)", " B = TRUE\n", "(U = 1) AND (B = TRUE) OR (I = 2) AND (B = TRUE)"),
    ]
}

/// Each term of the first with each of the second, in order; between groups all joins are spelled alike.
fn terms_and_groups() -> Vec<ConjoinExample> {
    vec![
        joined("(U=1) AND (U=2)", "I=3", "(U=1) AND (U=2) AND (I=3)"),
        joined("I=3", "(U=1) AND (U=2)", "(I=3) AND (U=1) AND (U=2)"),
        joined("(U=1) OR (U=2)", "I=3", "(U=1) AND (I=3) OR (U=2) AND (I=3)"),
        joined("I=3", "(U=1) OR (U=2)", "(I=3) AND (U=1) OR (I=3) AND (U=2)"),
        joined("(U=1)and(U=2)", "(I=3)aNd(I=4)", "(U=1) AND (U=2) AND (I=3) AND (I=4)"),
        joined(
            "(U=1)Or(U=2)",
            "(I=3)  OR\n(I=4)\toR  (I=5)",
            "(U=1) AND (I=3) OR (U=1) AND (I=4) OR (U=1) AND (I=5) OR \
             (U=2) AND (I=3) OR (U=2) AND (I=4) OR (U=2) AND (I=5)",
        ),
        joined(
            "(U=1) AND (U=2) OR (U=3)",
            "(I=4) OR (I=5) AND (I=6)",
            "(U=1) AND (U=2) AND (I=4) OR (U=1) AND (U=2) AND (I=5) AND (I=6) OR \
             (U=3) AND (I=4) OR (U=3) AND (I=5) AND (I=6)",
        ),
        joined(
            "(U=1 OR U=2) AND (U=3 AND U=4)",
            "(I=5 OR I=6) OR (I=7)",
            "(U=1 OR U=2) AND (U=3 AND U=4) AND (I=5 OR I=6) OR (U=1 OR U=2) AND (U=3 AND U=4) AND (I=7)",
        ),
        // What was written once is a query like any other.
        joined(
            "(U=1) AND (I=3) OR (U=2) AND (I=3)",
            "B=TRUE",
            "(U=1) AND (I=3) AND (B=TRUE) OR (U=2) AND (I=3) AND (B=TRUE)",
        ),
    ]
}

/// In a string a bracket is none, a word joins nothing, and whitespace stays.
fn strings() -> Vec<ConjoinExample> {
    vec![
        joined("S = ')'", "S = '('", "(S = ')') AND (S = '(')"),
        joined("(S = ')')", "( S = '(' )", "(S = ')') AND (S = '(')"),
        joined("S = 'x AND ('", "(S = 'x) OR (y')", "(S = 'x AND (') AND (S = 'x) OR (y')"),
        joined("(S = ' ) OR ( ') OR (S = ')')", "U=1", "(S = ' ) OR ( ') AND (U=1) OR (S = ')') AND (U=1)"),
        joined(r"(S = '\') OR (' )", r"S = '\\'", r"(S = '\') OR (') AND (S = '\\')"),
        joined(r"(S = '\\') OR (S = ')')", "U=1", r"(S = '\\') AND (U=1) OR (S = ')') AND (U=1)"),
        joined("S = ' '", "( S = '' )", "(S = ' ') AND (S = '')"),
        joined("S LIKE '(a|b )'", "Ss = {'(', ' )'}", "(S LIKE '(a|b )') AND (Ss = {'(', ' )'})"),
        joined(r"S = '\u0029'", r"(S = '\u0028 OR')", r"(S = '\u0029') AND (S = '\u0028 OR')"),
    ]
}

/// There a word names a property.
fn reserved_words_after_a_dot() -> Vec<ConjoinExample> {
    let or_and = Setting::new("P", &[("Or", UINT64, uint64(1)), ("And", UINT64, uint64(2))]).table();
    vec![
        joined("P . AND = 1", "P.And = 1 AND U = 1", "(P . AND = 1) AND (P.And = 1 AND U = 1)"),
        joined("(ANY P . ANY = 1)", "P. Null = 'n'", "(ANY P . ANY = 1) AND (P. Null = 'n')"),
        joined("P.OR = 1", "P . AND = 1", "(P.OR = 1) AND (P . AND = 1)").under(or_and.clone()),
        joined(
            "(P.Or = P\t.\tOR) OR (P.And = P.AND) AND (P.OR = 1)",
            "P.Or = 1",
            "(P.Or = P\t.\tOR) AND (P.Or = 1) OR (P.And = P.AND) AND (P.OR = 1) AND (P.Or = 1)",
        )
        .under(or_and),
    ]
}

/// So many comparisons joined to one group.
fn group(comparisons: usize) -> String {
    vec!["U=1"; comparisons].join(" OR ")
}

/// So many terms of one comparison each.
fn terms(number: usize) -> String {
    vec!["(U=1)"; number].join(" OR ")
}

/// 64 are allowed. A group stands once for each term of the other query.
fn so_many_comparisons() -> Vec<ConjoinExample> {
    let two_groups = |a: usize, b: usize| joined(&group(a), &group(b), &format!("({}) AND ({})", group(a), group(b)));
    let terms_and_group = |a: usize, b: usize| {
        let pair = format!("(U=1) AND ({})", group(b));
        joined(&terms(a), &group(b), &vec![pair; a].join(" OR "))
    };
    let two_of_terms = |a: usize, b: usize| joined(&terms(a), &terms(b), &vec!["(U=1) AND (U=1)"; a * b].join(" OR "));
    vec![
        two_groups(1, 63),
        two_groups(32, 32),
        two_groups(63, 1),
        too_large(&group(1), &group(64)),
        too_large(&group(32), &group(33)),
        too_large(&group(64), &group(1)),
        too_large(&group(64), &group(64)),
        // 2 + 2 × 31 and 2 + 2 × 32, 4 + 4 × 15 and 5 + 5 × 12, 16 + 16 × 3 and 13 + 13 × 4.
        terms_and_group(2, 31),
        too_large(&terms(2), &group(32)),
        terms_and_group(4, 15),
        too_large(&terms(5), &group(12)),
        terms_and_group(16, 3),
        too_large(&terms(13), &group(4)),
        // Two in each of a × b pairs.
        two_of_terms(1, 32),
        two_of_terms(32, 1),
        two_of_terms(4, 8),
        too_large(&terms(1), &terms(33)),
        too_large(&terms(33), &terms(1)),
        too_large(&terms(3), &terms(11)),
        too_large(&terms(64), &terms(64)),
    ]
}

/// A comparison of so many bytes.
fn long(bytes: usize) -> String {
    format!("S = '{}'", "x".repeat(bytes - 6))
}

/// 4,096 are allowed. Brackets and AND of two groups take 9 bytes, an OR 4; inner whitespace counts.
fn so_many_bytes() -> Vec<ConjoinExample> {
    let two_groups = |a: usize, b: usize| joined(&long(a), &long(b), &format!("({}) AND ({})", long(a), long(b)));
    let two_terms = |a: usize, b: usize| format!("({}) OR ({})", long(a), long(b));
    let [a, b, c] = [999, 1_001, 1_037].map(long);
    let blanks = |n: usize| format!("U{}= 1", " ".repeat(n));
    vec![
        two_groups(2_000, 2_087),
        two_groups(4_080, 7),
        two_groups(7, 4_080),
        too_large(&long(2_000), &long(2_088)),
        too_large(&long(4_080), &long(8)),
        too_large(&long(8), &long(4_080)),
        too_large(&long(4_096), "U=1"),
        too_large("U=1", &long(4_096)),
        too_large(&long(4_096), &long(4_096)),
        joined(&two_terms(999, 1_001), &c, &format!("({a}) AND ({c}) OR ({b}) AND ({c})")),
        joined(&c, &two_terms(999, 1_001), &format!("({c}) AND ({a}) OR ({c}) AND ({b})")),
        too_large(&two_terms(1_000, 1_001), &c),
        too_large(&two_terms(999, 1_001), &long(1_038)),
        too_large(&c, &two_terms(1_000, 1_001)),
        joined(&blanks(4_078), "I = 2", &format!("({}) AND (I = 2)", blanks(4_078))),
        too_large(&blanks(4_079), "I = 2"),
    ]
}

/// As long as the text, or longer; else 44.
fn buffers() -> Vec<ConjoinExample> {
    let text = "(U = 1) AND (I = 2)";
    let lent = |buffer: &[u8], left: &[u8]| ConjoinExample {
        buffer: buffer.to_vec(),
        left: left.to_vec(),
        ..joined("U = 1", "I = 2", text)
    };
    let short = |first: &str, length: usize| refused(first.as_bytes(), b"I = 2", [0, 44, 0]).with_buffer(length);
    vec![
        lent(&[7; 19], text.as_bytes()),
        lent(&[0; 19], text.as_bytes()),
        lent(&[255; 20], &[text.as_bytes(), &[255]].concat()),
        lent(&[7; 5_000], &[text.as_bytes(), &[7; 5_000 - 19]].concat()),
        short("U = 1", 18),
        short("U = 1", 1),
        short("U = 1", 0),
        short("(U = 1) AND (U = 2) OR (U = 3)", 53),
        short(&long(4_082), 4_095),
        joined("(U = 1) AND (U = 2) OR (U = 3)", "I = 2", "(U = 1) AND (U = 2) AND (I = 2) OR (U = 3) AND (I = 2)"),
    ]
}

/// Each cause in the first query and in the second, with its place there.
fn faults() -> Vec<ConjoinExample> {
    let many = group(65).into_bytes();
    let long = vec![b'x'; 4_097];
    let mut out = Vec::new();
    for (query, number, place) in [
        (&long[..], 1, 0),
        (b"S = '\xff'", 10, 5),
        (b"", 11, 0),
        (b" ", 11, 1),
        (b"U = 1 AND", 11, 9),
        (b"(U = 1) AND U = 1", 11, 12),
        (b"((U = 1))", 11, 1),
        (&many, 12, 64 * 7),
        (b"U = 1 OR Zed = 1", 20, 9),
        (b"(U = 1) OR (P.Zed = 1)", 20, 12),
        (b"Us = 1", 22, 0),
        (b"U = .5", 21, 0),
        (b"U = 18446744073709551616", 23, 4),
        (b"S LIKE '('", 24, 7),
        (b" ( T = 'x' )", 25, 7),
    ] {
        out.push(refused(query, b"U = 1", [1, number, place]));
        out.push(refused(b"U = 1", query, [2, number, place]));
        // The first is checked before the second, whatever their numbers.
        for other in [&long[..], b"\xff", b"U = 1 AND", b"Zed = 1", b"T = 'x'"] {
            out.push(refused(query, other, [1, number, place]));
        }
    }
    out
}

/// They come with the first, whatever the queries are.
fn faults_of_the_table() -> Vec<ConjoinExample> {
    let twice = [types().table(), write(BOOLEAN, b"u")].concat();
    let cut = [types().table(), vec![0]].concat();
    let end = types().table().len() as u64;
    let mut out = Vec::new();
    for (table, number, place) in [(vec![], 2, 0), (vec![0; 8_193], 2, 0), (twice, 3, end), (cut, 2, end)] {
        for (first, second) in [("U = 1", "I = 2"), ("U = 1 AND", "I = 2"), ("U = 1", "Zed = 1"), ("", "")] {
            let example = refused(first.as_bytes(), second.as_bytes(), [1, number, place]);
            out.push(example.under(table.clone()));
        }
    }
    out
}

/// Both checks, then 43, then 44.
fn faults_before_sizes() -> Vec<ConjoinExample> {
    let (many, long) = (group(64), long(4_096));
    vec![
        refused(many.as_bytes(), b"Zed = 1", [2, 20, 0]),
        refused(b"Zed = 1", many.as_bytes(), [1, 20, 0]),
        refused(long.as_bytes(), b"U = 1 AND", [2, 11, 9]),
        refused(b"U = 1", b"U = 1 AND", [2, 11, 9]).with_buffer(0),
        refused(b"U = 1 AND", b"U = 1", [1, 11, 9]).with_buffer(0),
        refused(b"U = 1", b"U = 1", [1, 2, 0]).under(vec![]).with_buffer(0),
        too_large(&many, "U = 1").with_buffer(0),
        too_large(&many, "U = 1").with_buffer(64),
        too_large(&long, "U = 1").with_buffer(0),
        too_large("U = 1", &long).with_buffer(4_095),
        too_large("U = 1", &long).with_buffer(70_000),
        too_large(&many, &many).with_buffer(70_000),
    ]
}
