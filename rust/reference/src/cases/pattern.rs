//! Random patterns: made for a text, grown by the syntax, and malformed.

use crate::pattern::Pattern;
use crate::random::Random;

const MALFORMED: [&str; 24] = [
    "[^]", "[]", "[a-]", "[-a]", "[^-a]", "[a-b-c]", "[b-a]", "a**", "a+?", "*a", "(*)", "|*", ")", "]", "(", "(a",
    "[a", "\\", "[\\", "a\\", "a|+", "((a)", "[a\\", "?",
];

/// A character outside sets, escaped where it must be, and sometimes where it needn't.
fn item(r: &mut Random, c: char) -> String {
    match ".\\()[]|*+?".contains(c) || r.chance(10) {
        true => format!("\\{c}"),
        false => c.to_string(),
    }
}

/// A character inside a set.
fn member(r: &mut Random, c: char) -> String {
    match "]\\-^".contains(c) || r.chance(10) {
        true => format!("\\{c}"),
        false => c.to_string(),
    }
}

/// A piece that takes this character, among others perhaps.
fn piece(r: &mut Random, c: char) -> String {
    let (own, inside) = (item(r, c), member(r, c));
    let other = if c == 'z' { 'y' } else { 'z' };
    match r.below(12) {
        0 => ".".to_owned(),
        1 => format!("[{inside}x-z]"),
        2 => format!("[^{other}0-1]"),
        3 => format!("({own}|b)"),
        4 => format!("{own}+"),
        5 => format!("{own}*"),
        6 => format!("{own}?"),
        7 => format!("(|{own})"),
        8 => format!("(({own})+|.)"),
        9 => format!("{other}*{own}"),
        _ => own,
    }
}

/// A pattern for a text: most match it.
fn for_text(r: &mut Random, text: &str) -> String {
    let characters: Vec<char> = text.chars().collect();
    let n = characters.len().min(1 + r.below(10));
    let mut out: String = characters[..n].iter().map(|&c| piece(r, c)).collect();
    if n < characters.len() {
        out.push_str(r.pick(&[".*", ".*", ".+", "(.)*", ""]));
    }
    match r.below(10) {
        0 => out.push('z'),
        1 => out.push_str("(zz)?"),
        2 => out = format!("{out}|q*"),
        3 => out = format!("({out})*"),
        _ => {}
    }
    out
}

/// A pattern by the syntax alone.
fn grown(r: &mut Random, depth: usize) -> String {
    let mut out = String::new();
    for _ in 0..r.below(4) {
        let c = r.pick(&['a', 'b', 'c', '_', '2', '\u{e9}', '-', '^']);
        let inner = if depth > 0 && r.chance(3) { format!("({})", grown(r, depth - 1)) } else { piece(r, c) };
        out.push_str(&inner);
        if !inner.ends_with(['*', '+', '?']) {
            out.push_str(r.pick(&["", "", "*", "+", "?"]));
        }
        if r.chance(6) {
            out.push('|');
        }
    }
    out
}

/// A well-formed pattern.
pub fn well_formed(r: &mut Random, near: &str) -> String {
    loop {
        let pattern = match r.below(4) {
            0 => grown(r, 3),
            1 => r.pick(&["", ".*", "FAN_.*", "a*b*", "(a|b)*", "[^a]*", "()", "|", ".", "\u{1d11e}*"]).to_owned(),
            _ => for_text(r, near),
        };
        if read(&pattern) {
            return pattern;
        }
    }
}

pub fn malformed(r: &mut Random) -> String {
    loop {
        let pattern = match r.below(5) {
            0 => "a".repeat(61 + r.below(20)),
            1 => format!("{}b{}", "(".repeat(9), ")".repeat(9)),
            2 => {
                let good = well_formed(r, "a[b]");
                let damaged = r.damage(good.as_bytes());
                String::from_utf8_lossy(&damaged).into_owned()
            }
            3 => format!("{}{}", well_formed(r, "ab"), r.pick(&MALFORMED)),
            _ => r.pick(&MALFORMED).to_owned(),
        };
        if !read(&pattern) {
            return pattern;
        }
    }
}

fn read(pattern: &str) -> bool {
    let characters: Vec<u32> = pattern.chars().map(u32::from).collect();
    Pattern::parse(&characters).is_some()
}
