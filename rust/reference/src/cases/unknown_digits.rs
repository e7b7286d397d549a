//! Random unknown digits in datetimes (02, Q-6): over a tail that may be unknown, and where none may.

use crate::datetime::parse;
use crate::random::Random;

/// The place behind the last microsecond digit.
const END: usize = 21;
const MICROSECONDS: [usize; 6] = [15, 16, 17, 18, 19, 20];
const LOWEST: &str = "00000101000000.000000";
const HIGHEST: [&str; 4] =
    ["99991231235959.999999", "99991230235959.999999", "99991229235959.999999", "99991228235959.999999"];

/// The same text with stars for its digits from one place up to another; the point stays.
fn starred(text: &str, from: usize, to: usize) -> String {
    let at = |(n, c)| if (from..to).contains(&n) && c != '.' { '*' } else { c };
    text.chars().enumerate().map(at).collect()
}

fn with(text: &str, at: usize, part: &str) -> String {
    format!("{}{part}{}", &text[..at], &text[at + part.len()..])
}

fn is_interval(text: &str) -> bool {
    text.as_bytes()[END] == b':'
}

/// The same datetime with a tail of unknown digits, or a longer one.
pub fn with_tail(r: &mut Random, text: &str) -> String {
    let field = match is_interval(text) {
        true => r.pick(&[0, 8, 10, 12]),
        false => r.pick(&[0, 4, 6, 8, 10, 12]),
    };
    let start = if r.chance(3) { r.pick(&MICROSECONDS) } else { field };
    starred(text, start, END)
}

/// A datetime at one end of the span.
pub fn end(r: &mut Random, text: &str) -> String {
    let start = text.find('*').unwrap_or(END);
    let lowest = if is_interval(text) { "00000000000000.000000" } else { LOWEST };
    let highest = if is_interval(text) { &["99999999235959.999999"][..] } else { &HIGHEST };
    let filled = |with: &&str| format!("{}{}{}", &text[..start], &with[start..], &text[END..]);
    let is_datetime = |text: &String| parse(text.as_bytes()).is_some();
    match r.chance(2) {
        true => filled(&lowest),
        false => highest.iter().map(filled).find(is_datetime).unwrap(),
    }
}

/// A datetime whose digits are all known, spoiled by stars: some are where no star may be, or they start inside a field,
/// or known digits stand among them, or a known field before them is out of its range.
pub fn spoiled(r: &mut Random, known: &str) -> String {
    let tail = with_tail(r, known);
    let digit = char::from(b'0' + r.below(10) as u8).to_string();
    match r.below(7) {
        0 => starred(known, r.pick(&[1, 2, 3, 4, 5, 6, 7, 9, 11, 13]), END),
        1 => with(&tail, r.pick(&[8, 9, 10, 11, 12, 13, 15, 16, 17, 18, 19, 20]), &digit),
        2 => {
            let to = r.pick(&[4, 6, 8, 10, 12, 14, 20]);
            starred(known, r.below(to), to)
        }
        3 => with(&tail, 14, "*"),
        4 => with(if r.chance(2) { known } else { &tail }, 21, "*"),
        5 => {
            let (at, stars) = r.pick(&[(22, "***"), (22, "*"), (23, "**"), (23, "*"), (24, "*")]);
            with(if r.chance(2) { known } else { &tail }, at, stars)
        }
        _ => {
            let (at, value, start) = r.pick(&[
                (4, "00", 6),
                (4, "13", 6),
                (4, "0230", 8),
                (4, "0431", 8),
                (8, "24", 10),
                (10, "60", 12),
                (12, "60", 15),
            ]);
            starred(&with(known, at, value), start, END)
        }
    }
}
