//! String literals.

use reference::random::Random;

/// Whether a character may stand in a string literal as itself.
pub fn stands_raw(c: char) -> bool {
    !matches!(c, '\0'..='\u{1f}' | '\'' | '\\' | '\u{fffe}' | '\u{ffff}')
}

/// A string literal of this text, each character escaped where it must be and by chance elsewhere.
pub fn quoted(r: &mut Random, text: &str) -> String {
    let mut out = "'".to_owned();
    for c in text.chars() {
        match c {
            '\'' | '\\' if !r.chance(4) => out.extend(['\\', c]),
            c if stands_raw(c) && !r.chance(20) => out.push(c),
            // Six digits are the most that an escape takes, so a digit that follows is a character of its own.
            c => out.push_str(&format!("\\u{:06x}", u32::from(c))),
        }
    }
    out + "'"
}
