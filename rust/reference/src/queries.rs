//! Random queries: well-formed ones by the grammar, and the same with small damage.

use crate::random::Random;

const NAMES: [&str; 12] = ["U", "Us", "S", "Name", "P", "Temp_2", "_x1", "Dev", "notany", "e5", "B", "Nope"];
const WORDS: [&str; 9] = ["AND", "any", "Every", "FALSE", "like", "NOT", "null", "Or", "tRuE"];
const NUMBERS: [&str; 22] = [
    "0",
    "5",
    "-5",
    "+7",
    "007",
    "65536",
    "18446744073709551615",
    "18446744073709551616",
    "101b",
    "-1B",
    "0x12",
    "0X0a1B",
    "-0x05",
    "0x0000000000000000000001",
    ".5",
    "1.",
    "-1.5e-05",
    "+.25E3",
    "1.0E23",
    "0.E23",
    "12345678901234567.",
    "000000.50",
];
const STRINGS: [&str; 15] = [
    "''",
    "'x'",
    "'FAN_.*'",
    "'a\\'b'",
    "'\\\\'",
    "'\\u0041BC'",
    "'\\u00e9\\n\\t'",
    "'é𝄞'",
    "'20051003112233.000000+000'",
    "'200510031122**.******+000'",
    "'\\u10FFFF'",
    "'[a-c]+(x|y)?'",
    "'\\uFFFF'",
    "'()*'",
    "' ) AND ('",
];
const SPOILED: [&str; 12] =
    ["'", "'\\x'", "'\\uD800'", "'\\u12'", "'\\u110000'", "\"x\"", "#", "- 5", "0x1", "0x123", "é", "'\t'"];

fn whitespace(r: &mut Random) -> &'static str {
    r.pick(&[" ", " ", " ", "  ", "\t", "\r\n", "\n "])
}

fn maybe(r: &mut Random) -> &'static str {
    if r.chance(3) {
        whitespace(r)
    } else {
        ""
    }
}

fn path(r: &mut Random) -> String {
    let mut out = r.pick(&NAMES).to_owned();
    while r.chance(5) {
        let name = if r.chance(6) { r.pick(&WORDS) } else { r.pick(&NAMES) };
        out = format!("{out}{}.{}{name}", maybe(r), maybe(r));
    }
    out
}

fn element(r: &mut Random) -> String {
    format!(
        "{}{}[{}{}{}]",
        path(r),
        maybe(r),
        maybe(r),
        r.pick(&["0", "1", "65535", "65536", "99999999999999999999"]),
        maybe(r)
    )
}

fn literal(r: &mut Random) -> String {
    match r.below(5) {
        0 => r.pick(&["TRUE", "false", "NULL"]).to_owned(),
        1 => r.pick(&STRINGS).to_owned(),
        _ => r.pick(&NUMBERS).to_owned(),
    }
}

fn list(r: &mut Random) -> String {
    let n = if r.chance(40) { 30 + r.below(5) } else { r.below(5) };
    let elements: Vec<String> = (0..n).map(|_| format!("{}{}{}", maybe(r), literal(r), maybe(r))).collect();
    format!("{{{}}}", elements.join(","))
}

fn comparison(r: &mut Random) -> String {
    let quantifier = r.pick(&["ANY", "EVERY", "NOT ANY", "not every"]);
    let operator = r.pick(&["=", "<>", "<", "<=", ">", ">="]);
    let equality = r.pick(&["=", "<>"]);
    let (a, b) = (whitespace(r), whitespace(r));
    match r.below(9) {
        0 => format!("{}{a}{equality}{b}{}", path(r), list(r)),
        1 => format!("{}{a}{operator}{b}{}", path(r), path(r)),
        2 => format!("{}{a}{operator}{b}{}", element(r), literal(r)),
        3 => format!("{}{a}{operator}{b}{}", element(r), if r.chance(2) { path(r) } else { element(r) }),
        4 => format!("{quantifier} {}{a}{operator}{b}{}", path(r), literal(r)),
        5 => format!("{quantifier} {}{a}{operator}{b}{}", path(r), if r.chance(2) { path(r) } else { element(r) }),
        6 => format!(
            "{}{a}{}LIKE{b}{}",
            if r.chance(2) { path(r) } else { element(r) },
            r.pick(&["", "NOT "]),
            r.pick(&STRINGS)
        ),
        _ => format!("{}{a}{operator}{b}{}", path(r), literal(r)),
    }
}

fn join(r: &mut Random) -> String {
    format!("{}{}{}", whitespace(r), r.pick(&["AND", "OR", "and", "oR"]), whitespace(r))
}

fn expression(r: &mut Random, comparisons: usize) -> String {
    let mut out = comparison(r);
    for _ in 1..comparisons {
        out = out + &join(r) + &comparison(r);
    }
    out
}

/// A query that the grammar allows, though a limit may not.
pub fn well_formed(r: &mut Random) -> String {
    let few = |r: &mut Random| if r.chance(60) { 60 + r.below(7) } else { 1 + r.below(4) };
    if r.chance(2) {
        let n = few(r);
        return format!("{}{}{}", maybe(r), expression(r, n), maybe(r));
    }
    let groups = if r.chance(60) { 62 + r.below(5) } else { 1 + r.below(3) };
    let parts: Vec<String> = (0..groups)
        .map(|_| {
            let n = if groups > 10 { 1 } else { few(r) };
            format!("({}{}{})", maybe(r), expression(r, n), maybe(r))
        })
        .collect();
    let mut out = parts[0].clone();
    for part in &parts[1..] {
        out = format!("{out}{}{}{}{part}", maybe(r), r.pick(&["AND", "OR"]), maybe(r));
    }
    out
}

/// The same query with a piece left out, doubled or exchanged for another, or with damaged bytes.
pub fn damaged(r: &mut Random, query: &str) -> Vec<u8> {
    if r.chance(4) {
        return r.damage(query.as_bytes());
    }
    let mut pieces: Vec<String> = query.split_inclusive(' ').map(str::to_owned).collect();
    let at = r.below(pieces.len());
    match r.below(6) {
        0 => {
            pieces.remove(at);
        }
        1 => pieces.insert(at, pieces[at].clone()),
        2 => pieces[at] = pieces[at].trim_end().to_owned(),
        3 => pieces[at] = r.pick(&SPOILED).to_owned() + r.pick(&["", " "]),
        4 => {
            pieces[at] =
                r.pick(&["(", ")", "[", "]", "{", "}", ",", ".", "=", "<", "AND ", "NOT ", "ANY ", "LIKE "]).to_owned()
        }
        _ => pieces.truncate(at),
    }
    pieces.concat().into_bytes()
}
