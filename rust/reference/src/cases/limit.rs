//! Cases just within a limit and just beyond it.

use super::comparison::{self, any_operator, braced, equality, index, is_scalar, like};
use super::source::Source;
use super::tokens::{marked, marked_first, write as write_tokens, Tokens};
use super::{literal, value, Case, Intended};
use crate::kind::{is_array, type_of, ARRAY, BOOLEAN, NULL, TYPES, UINT64};
use crate::random::Random;
use crate::record::{write, Property, Table};
use crate::value::Row;

pub fn case(r: &mut Random) -> Case {
    match r.below(14) {
        0 => comparisons(r),
        1 => elements(r),
        2 => large_index(r),
        3 => pattern(r),
        4 => table_length(r),
        5 => instance_length(r),
        6 => query_length(r),
        7 => integer(r),
        8 => real(r),
        9 => array_length(r),
        10 => property_count(r),
        11 => name_length(r),
        12 => escape(r),
        _ => ill_formed(r),
    }
}

/// A case for these tokens: an answer within the limit, beyond it a refusal at the marked token.
fn decided(r: &mut Random, s: &Source, tokens: &[String], within: bool, number: u64) -> Case {
    let (query, place) = write_tokens(r, tokens);
    let intended = if within { Intended::Answer } else { Intended::Refusal(number, place.unwrap()) };
    s.case("limit", query, intended)
}

fn comparisons(r: &mut Random) -> Case {
    let s = Source::of_all_types(r);
    let n = 62 + r.below(5);
    let is_short = |tokens: &Tokens| tokens.iter().map(String::len).sum::<usize>() < 30;
    let few: Vec<Tokens> = (0..3)
        .map(|_| loop {
            if let Some(short) = comparison::any(r, &s).filter(is_short) {
                break short;
            }
        })
        .collect();
    let mut many: Vec<Tokens> = (0..n).map(|_| few[r.below(3)].clone()).collect();
    if n > 64 {
        many[64] = marked_first(many[64].clone());
    }
    let tokens = comparison::joined(r, many);
    decided(r, &s, &tokens, n <= 64, 12)
}

fn elements(r: &mut Random) -> Case {
    let s = Source::of_all_types(r);
    let left = s.pick(r, is_array).unwrap();
    let n = 30 + r.below(5);
    let mut list: Vec<String> = (0..n)
        .map(|_| loop {
            let literal = literal::fitting(r, type_of(s.kind(left)), None);
            if literal.len() <= 60 {
                break literal;
            }
        })
        .collect();
    if n > 32 {
        list[32] = marked(&list[32]);
    }
    let tokens = [s.path(r, left), vec![equality(r)], braced(&list)].concat();
    decided(r, &s, &tokens, n <= 32, 12)
}

fn large_index(r: &mut Random) -> Case {
    let s = Source::of_all_types(r);
    let left = s.pick(r, is_array).unwrap();
    let n = 65_533 + r.below(6);
    let large = index(r, &n.to_string());
    let large = vec![large[0].clone(), marked(&large[1]), large[2].clone()];
    let tokens = match r.below(3) {
        0 => [s.path(r, left), large, vec![equality(r), literal::null(r)]].concat(),
        1 => [s.path(r, left), index(r, "0"), vec![equality(r)], s.path(r, left), large].concat(),
        _ => {
            let text = s.pick(r, |k| is_array(k) && Row::of(k) == Row::Text).unwrap();
            [s.path(r, text), large, like(r), vec!["'x*'".to_owned()]].concat()
        }
    };
    decided(r, &s, &tokens, n <= 65_535, 23)
}

fn pattern(r: &mut Random) -> Case {
    let s = Source::of_all_types(r);
    let text = s.pick(r, |k| is_scalar(k) && Row::of(k) == Row::Text).unwrap();
    let (pattern, within) = match r.below(4) {
        0 => {
            let n = 252 + r.below(5);
            (format!("[{}]*", r.pick(&["a", "\u{e9}", "."]).repeat(n)), n + 3 <= 256)
        }
        1 => {
            let n = 124 + r.below(5);
            (format!("[{}b]", r.pick(&["\\a", "\\]"]).repeat(n)), 2 * n + 3 <= 256)
        }
        2 => {
            let n = 57 + r.below(7);
            (r.pick(&["a", "[^b]", "\\.", ".", "a*", "a|"]).repeat(n), n <= 60)
        }
        _ => {
            let n = 6 + r.below(5);
            (format!("{}a{}", r.pick(&["(", "("]).repeat(n), r.pick(&[")", ")*", ")?"]).repeat(n)), n <= 8)
        }
    };
    let literal = literal::quoted(r, &pattern);
    let tokens = [s.path(r, text), like(r), vec![marked(&literal)]].concat();
    decided(r, &s, &tokens, within, 24)
}

fn with_names(names: &[String], kind: u16) -> Table {
    let property = |name: &String| Property { name: name.as_bytes().to_vec(), kind };
    Table { class: b"C".to_vec(), properties: names.iter().map(property).collect() }
}

/// A query for the last of some properties, which are all NULL.
fn on_nulls(r: &mut Random, names: &[String], intended: Intended) -> Case {
    let kind = r.pick(&TYPES);
    let query = format!("{} = NULL", names.last().unwrap()).into_bytes();
    let instance = write(NULL, &[]).repeat(names.len());
    Case { sort: "limit", query, table: with_names(names, kind).write(), instance, intended }
}

/// 127 names of 60 bytes and one more, 8,137 bytes without that name.
fn table_length(r: &mut Random) -> Case {
    let last = 52 + r.below(6);
    let mut names: Vec<String> = (0..127).map(|i| format!("{i:_>60}")).collect();
    names.push("z".repeat(last));
    let within = 8_137 + last <= 8_192;
    on_nulls(r, &names, if within { Intended::Answer } else { Intended::Refusal(2, 0) })
}

fn property_count(r: &mut Random) -> Case {
    let n = 126 + r.below(5);
    let names: Vec<String> = (0..n).map(|i| format!("p{i:03}")).collect();
    on_nulls(r, &names, if n <= 128 { Intended::Answer } else { Intended::Refusal(2, 5 + 128 * 8) })
}

fn name_length(r: &mut Random) -> Case {
    let (n, before) = (62 + r.below(5), r.below(4));
    let mut names: Vec<String> = (0..before).map(|i| format!("p{i}")).collect();
    names.push("x".repeat(n));
    on_nulls(r, &names, if n <= 64 { Intended::Answer } else { Intended::Refusal(2, 5 + 6 * before as u64) })
}

fn instance_length(r: &mut Random) -> Case {
    let s = Source::of_all_types(r);
    let query = comparison::query(r, &s);
    let total = 65_533 + r.below(6);
    let mut instance = s.instance.clone();
    if r.chance(2) {
        while instance.len() + 200 < total {
            instance.extend(write(ARRAY | UINT64, &[7; 100]));
        }
    }
    instance.extend(write(0x4444, &vec![7; total - instance.len() - 4]));
    let intended = if total <= 65_535 { Intended::Answer } else { Intended::Refusal(30, 0) };
    Case { instance, ..s.case("limit", query, intended) }
}

fn query_length(r: &mut Random) -> Case {
    let s = Source::of_all_types(r);
    let query = comparison::query(r, &s);
    let total = 4_094 + r.below(6);
    let padding = vec![r.pick(b" \t\r\n"); total - query.len().min(total)];
    let padded = if r.chance(2) { [query, padding].concat() } else { [padding, query].concat() };
    let intended = if padded.len() <= 4_096 { Intended::Answer } else { Intended::Refusal(1, 0) };
    s.case("limit", padded, intended)
}

fn integer(r: &mut Random) -> Case {
    let s = Source::of_all_types(r);
    let left = s.pick(r, |k| is_scalar(k) && Row::of(k) == Row::Integer).unwrap();
    let size = i128::from(u64::MAX) - 2 + r.below(5) as i128;
    let n = if r.chance(2) { -size } else { size };
    let literal = literal::integer(r, n);
    let tokens = [s.path(r, left), vec![any_operator(r), marked(&literal)]].concat();
    decided(r, &s, &tokens, size <= i128::from(u64::MAX), 23)
}

fn real(r: &mut Random) -> Case {
    let s = Source::of_all_types(r);
    let left = s.pick(r, |k| is_scalar(k) && Row::of(k) == Row::Real).unwrap();
    let small = r.below(1_000) as u64;
    let d =
        r.pick(&[0, 1, small, 999_999_999_999_998, 999_999_999_999_999, 1_000_000_000_000_000, 1_000_000_000_000_001]);
    let e = r.pick(&[-24, -23, -22, -22, -21, -1, 0, 1, 21, 22, 22, 23, 24]);
    let negative = r.chance(2);
    let literal = literal::real(r, negative, &d.to_string(), e);
    let tokens = [s.path(r, left), vec![any_operator(r), marked(&literal)]].concat();
    decided(r, &s, &tokens, d < 1_000_000_000_000_000 && e.abs() <= 22, 23)
}

/// An array of about 256 elements in front of the other records.
fn array_length(r: &mut Random) -> Case {
    let plain = r.pick(&TYPES);
    let n = 254 + r.below(5);
    let one = write(plain, &value::body(r, plain));
    let two = if r.chance(2) { write(NULL, &[]) } else { write(plain, &value::body(r, plain)) };
    let mut elements = vec![one; n];
    elements[n - 1] = two;
    let records = [write(BOOLEAN, &[1]), write(ARRAY | plain, &elements.concat())];
    let table = Table {
        class: b"C".to_vec(),
        properties: vec![
            Property { name: b"b".to_vec(), kind: BOOLEAN },
            Property { name: b"a".to_vec(), kind: ARRAY | plain },
        ],
    };
    let query =
        r.pick(&["ANY a = NULL", "EVERY a <> a[255]", "a = a", "a[255] = a[254]", "NOT ANY a = a[256]", "a <> {}"]);
    let intended = if n <= 256 { Intended::Answer } else { Intended::Refusal(31, 5) };
    Case { sort: "limit", query: query.into(), table: table.write(), instance: records.concat(), intended }
}

/// `\u` with four to six digits, at the edges of the scalar values.
fn escape(r: &mut Random) -> Case {
    let s = Source::of_all_types(r);
    let left = s.pick(r, |k| is_scalar(k) && matches!(Row::of(k), Row::Text | Row::Reference)).unwrap();
    let code: u32 = r.pick(&[
        0, 0x1f, 0x41, 0xd7ff, 0xd800, 0xdbff, 0xdfff, 0xe000, 0xfffe, 0xffff, 0x1_0000, 0x10_ffff, 0x11_0000,
        0xff_ffff,
    ]);
    let width = 4 + r.below(3);
    let digits = if r.chance(2) { format!("{code:0width$x}") } else { format!("{code:0width$X}") };
    // After six digits another is a character of its own; after fewer none may follow.
    let after = if digits.len() == 6 { r.pick(&["", "0", "BC", "g"]) } else { r.pick(&["", "g", " ", "\\u0041"]) };
    let literal = format!("'{}\\u{digits}{after}'", r.pick(&["", "a", "\u{e9}"]));
    let tokens = [s.path(r, left), vec![equality(r), marked(&literal)]].concat();
    decided(r, &s, &tokens, char::from_u32(code).is_some(), 11)
}

/// A sequence that is no UTF-8, between two characters of a query.
fn ill_formed(r: &mut Random) -> Case {
    let s = Source::of_all_types(r);
    let query = comparison::query(r, &s);
    let text = String::from_utf8(query[..query.len().min(4_000)].to_vec()).unwrap_or_default();
    let places: Vec<usize> = (0..=text.len()).filter(|&at| text.is_char_boundary(at)).collect();
    let at = r.pick(&places);
    let sequences: [&[u8]; 10] = [
        &[0x80],
        &[0xc1, 0xbf],
        &[0xc3],
        &[0xe0, 0x9f, 0xbf],
        &[0xe2, 0x82],
        &[0xed, 0xa0, 0x80],
        &[0xf0, 0x8f, 0xbf, 0xbf],
        &[0xf0, 0x9d, 0x84],
        &[0xf4, 0x90, 0x80, 0x80],
        &[0xff],
    ];
    let query = [&text.as_bytes()[..at], r.pick(&sequences), &text.as_bytes()[at..]].concat();
    s.case("limit", query, Intended::Refusal(10, at as u64))
}
