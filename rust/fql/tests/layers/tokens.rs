//! Where a token ends and the next one starts. No function tells it, so these are queries whose answer, number or place
//! depends on it: numbers and strings of random letters, escapes, neighbours that touch, and every prefix of a query.

use fql::types::STRING;
use reference::cases::random;
use reference::examples::setting::{text, types};
use reference::random::{for_each_seed, Random};
use reference::token::string;
use reference::{Answer, Refusal};

use crate::ask::{mark_of, marks, refusal, table};
use crate::common::agree;
use crate::seen::Seen;

fn sort_of(found: Result<Answer, Refusal>) -> &'static str {
    match found {
        Ok(_) => "answered",
        Err(Refusal { number: 11, .. }) => "11",
        Err(Refusal { number: 21, .. }) => "21",
        Err(Refusal { number: 23, .. }) => "23",
        Err(_) => "others",
    }
}

fn soup(r: &mut Random, letters: &[char], most: usize) -> String {
    let n = 1 + r.below(most);
    (0..n).map(|_| r.pick(letters)).collect()
}

/// Letters of numbers beside an integer, a real and octets, with a word behind them or touching them.
fn numbers(r: &mut Random) {
    let letters: Vec<char> = "00001111999...eE+-xXbBaF_ ".chars().collect();
    let (table, instance) = (types().table(), types().instance());
    let mut seen = Seen::default();
    for _ in 0..60_000 {
        let written = match r.below(3) {
            0 => soup(r, &letters, 6),
            1 => format!("0x{}", soup(r, &letters, 6)),
            _ => format!("{}{}", r.pick(&["1.", ".5", "10", "-0", "+1.5e", "99999999999999."]), soup(r, &letters, 4)),
        };
        let behind = r.pick(&["", "", " AND B = TRUE", "OR B = TRUE"]);
        for left in ["U", "D", "O"] {
            let operator = if left == "O" { "<>" } else { r.pick(&["=", "<", ">=", "<>"]) };
            let query = format!("{left}{}{operator}{}{written}{behind}", r.pick(&["", " "]), r.pick(&["", " "]));
            seen.add(sort_of(agree(query.as_bytes(), &table, &instance)));
        }
    }
    seen.assert_at_least(&[("answered", 8_000), ("11", 80_000), ("21", 10_000), ("23", 100), ("others", 1_000)]);
}

#[test]
fn letters_of_numbers() {
    for_each_seed(numbers);
}

/// Letters of strings: a literal that is a token equals its own text, and not that text with a character more.
fn strings(r: &mut Random) {
    let letters: Vec<char> = "\\\\\\\\uuu00041BcDdFf8''ntrbfx é𝄞\t\u{ffff}".chars().collect();
    let mut seen = Seen::default();
    for _ in 0..60_000 {
        let literal = format!("'{}{}'", r.pick(&["", "", "\\u", "\\u00", "a\\u10"]), soup(r, &letters, 10));
        let query = format!("S = {literal}");
        let unescaped = string(literal.as_bytes()).map_or(String::new(), |(text, _)| text);
        let setting = types().with("S", text(&unescaped));
        let found = agree(query.as_bytes(), &setting.table(), &setting.instance());
        seen.add(sort_of(found));
        if let Ok(answer) = found {
            assert!(answer.included, "{query}");
            let setting = setting.with("S", text(&format!("{unescaped}0")));
            let found = agree(query.as_bytes(), &setting.table(), &setting.instance());
            assert!(found.is_ok_and(|answer| !answer.included), "{query}");
        }
    }
    seen.assert_at_least(&[("answered", 3_000), ("11", 30_000)]);
}

#[test]
fn letters_of_strings() {
    for_each_seed(strings);
}

/// `\u` takes the longest run of four to six digits, which must be a scalar value; what follows stands for itself.
#[test]
fn every_run_of_digits_after_an_escape() {
    let (table, mut seen) = (table(&[STRING]), Seen::default());
    for length in 0..=7 {
        for run in 0..4usize.pow(length) {
            let digits: String = (0..length).map(|n| ['0', '1', 'd', 'F'][run / 4usize.pow(n) % 4]).collect();
            let taken = digits.len().min(6);
            let code = u32::from_str_radix(&digits[..taken], 16).ok().filter(|_| taken >= 4);
            let query = format!("A = '\\u{digits}g'");
            match code.and_then(char::from_u32) {
                None => {
                    assert_eq!(refusal(query.as_bytes(), &table), Some((11, 4)), "{query}");
                    seen.add("no token");
                }
                Some(c) => {
                    let texts = [format!("{c}{}g", &digits[taken..]), format!("{c}{}", &digits[taken..])];
                    let instances = texts.map(|value| text(&value));
                    assert_eq!(marks(&query, &table, &instances), [mark_of(true), mark_of(false)], "{query}");
                    seen.add("a token");
                }
            }
        }
    }
    seen.assert_at_least(&[("a token", 3_000), ("no token", 10_000)]);
}

const SAMPLES: [&str; 48] = [
    "U", "P", "b", "e5", "x00", "AND", "or", "NOT", "ANY", "LIKE", "TRUE", "null", "5", "-5", "+5", "0", "007", "1b",
    "10B", "0x05", "0X0a", "1.", ".5", "1.5", "1.e", "1.e5", "1.5E-5", "''", "'x'", "'\\''", "'", "'\\", "(", ")", "[",
    "]", "{", "}", ",", ".", "=", "<>", "<", "<=", ">", ">=", "+", "#",
];

/// Two neighbours, touching or not, as an operand and what follows it, as a path, and in brackets.
#[test]
fn neighbours() {
    let (table, instance) = (types().table(), types().instance());
    let mut seen = Seen::default();
    for (a, b) in SAMPLES.iter().flat_map(|a| SAMPLES.map(|b| (*a, b))) {
        for gap in ["", " ", "\t", "\r\n"] {
            for query in [
                format!("U = {a}{gap}{b} U = 5"),
                format!("U = {a}{gap}{b}"),
                format!("{a}{gap}{b} = 5"),
                format!("U {a}{gap}{b} 5"),
                format!("Us[{a}{gap}{b}] = 5"),
                format!("Us = {{{a}{gap}{b}}}"),
            ] {
                seen.add(sort_of(agree(query.as_bytes(), &table, &instance)));
            }
        }
    }
    seen.assert_at_least(&[("answered", 120), ("11", 50_000), ("21", 150), ("others", 400)]);
}

/// Each prefix ends inside a token or behind one, which its answer or the place of its 11 tells.
fn prefixes(r: &mut Random) {
    let mut seen = Seen::default();
    for _ in 0..12_000 {
        let case = random(r);
        if case.sort != "well-typed" {
            continue;
        }
        let query = String::from_utf8(case.query).unwrap();
        for end in (0..query.len().min(80)).filter(|end| query.is_char_boundary(*end)) {
            seen.add(match agree(&query.as_bytes()[..end], &case.table, &case.instance) {
                Ok(_) => "answered",
                Err(Refusal { number: 11, place }) if place as usize == end => "11 at the end",
                Err(Refusal { number: 11, .. }) => "11 before the end",
                Err(_) => "others",
            });
        }
    }
    seen.assert_at_least(&[
        ("answered", 5_000),
        ("11 at the end", 100_000),
        ("11 before the end", 10_000),
        ("others", 5_000),
    ]);
}

#[test]
fn every_prefix_of_a_query() {
    for_each_seed(prefixes);
}
