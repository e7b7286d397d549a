//! Long texts: in a fixed random order, or through many different characters in turn.

use reference::random::Random;

/// What one string property leaves of an instance for its text.
pub const LONGEST: usize = 65_531;

/// Characters at random, as many as fit, with the last one given.
pub fn shuffled(characters: &[char], bytes: usize, last: char) -> String {
    let mut r = Random::new(20_260_101);
    ended(|_| r.pick(characters), bytes, last)
}

/// The characters in turn, as many as fit, with the last one given.
pub fn cycled(characters: &[char], bytes: usize, last: char) -> String {
    ended(|n| characters[n % characters.len()], bytes, last)
}

fn ended(mut next: impl FnMut(usize) -> char, bytes: usize, last: char) -> String {
    let mut text = String::new();
    for n in 0.. {
        let c = next(n);
        if text.len() + c.len_utf8() + last.len_utf8() > bytes {
            break;
        }
        text.push(c);
    }
    text.push(last);
    text
}

pub fn range(from: char, to: char) -> Vec<char> {
    (from..=to).collect()
}

/// All characters of two bytes.
pub fn of_two_bytes() -> Vec<char> {
    range('\u{80}', '\u{7ff}')
}

/// The characters of three bytes that East Asian texts are written in.
pub fn of_three_bytes() -> Vec<char> {
    range('\u{4e00}', '\u{9fff}')
}

pub fn of_four_bytes() -> Vec<char> {
    range('\u{10000}', '\u{107ff}')
}
