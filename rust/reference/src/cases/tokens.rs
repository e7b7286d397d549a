//! Tokens put together to a text, with the whitespace that they need and some that they don't.

use crate::random::Random;

pub type Tokens = Vec<String>;

/// Stands before the token whose place is asked for; no query holds this character.
const MARK: char = '\u{1}';

pub fn marked(token: &str) -> String {
    format!("{MARK}{token}")
}

/// The tokens with a mark before the first.
pub fn marked_first(mut tokens: Tokens) -> Tokens {
    tokens[0] = marked(&tokens[0]);
    tokens
}

/// A reserved word or a name in a mixture of cases.
pub fn in_any_case(r: &mut Random, word: &str) -> String {
    let mixed = |r: &mut Random| -> String {
        word.chars().map(|c| if r.chance(2) { c.to_ascii_lowercase() } else { c.to_ascii_uppercase() }).collect()
    };
    match r.below(4) {
        0 => mixed(r),
        1 => word.to_ascii_lowercase(),
        _ => word.to_owned(),
    }
}

fn is_word_or_number(token: &str) -> bool {
    let bare = token.trim_start_matches(MARK);
    !bare.starts_with('\'') && bare.contains(|c: char| c.is_ascii_alphanumeric() || c == '_')
}

fn whitespace(r: &mut Random) -> &'static str {
    r.pick(&[" ", " ", " ", " ", "  ", "\t", "\r\n", "\n "])
}

/// The text, and where the marked token starts.
pub fn write(r: &mut Random, tokens: &[String]) -> (Vec<u8>, Option<u64>) {
    let mut out = String::new();
    let mut before_is_word = false;
    for (n, token) in tokens.iter().enumerate() {
        let word = is_word_or_number(token);
        let likely = if n == 0 { r.chance(12) } else { !r.chance(3) };
        if (before_is_word && word) || likely {
            out.push_str(whitespace(r));
        }
        out.push_str(token);
        before_is_word = word;
    }
    if r.chance(12) {
        out.push_str(whitespace(r));
    }
    let place = out.find(MARK).map(|at| at as u64);
    (out.replace(MARK, "").into_bytes(), place)
}
