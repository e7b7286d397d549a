//! Text between quotes, with the escapes of a query's string literals.

use crate::line::Line;
use crate::problem::Problem;

const ESCAPES: [(char, char); 7] =
    [('\\', '\\'), ('\'', '\''), ('b', '\u{8}'), ('t', '\t'), ('n', '\n'), ('f', '\u{c}'), ('r', '\r')];

/// Characters that a reader couldn't see, or that would break a line.
fn is_hidden(c: char) -> bool {
    c.is_control() || matches!(c, '\u{2028}' | '\u{2029}' | '\u{feff}' | '\u{fffe}' | '\u{ffff}')
}

pub fn show(text: &str) -> String {
    let mut out = String::from("'");
    for c in text.chars() {
        match ESCAPES.iter().find(|(_, escaped)| *escaped == c) {
            Some((letter, _)) => out.extend(['\\', *letter]),
            // Six digits, so that one that follows isn't taken for a seventh.
            None if is_hidden(c) => out += &format!("\\u{:06X}", u32::from(c)),
            None => out.push(c),
        }
    }
    out + "'"
}

pub fn read(line: &mut Line) -> Result<String, Problem> {
    let start = line.offset();
    if !line.rest().starts_with('\'') {
        return Err(line.problem("text between `'` is needed here".to_owned()));
    }
    line.character();
    let mut out = String::new();
    loop {
        let at = line.offset();
        match line.character() {
            None => return Err(line.problem_at(start, "this text has no end; `'` ends it".to_owned())),
            Some('\'') => break,
            Some('\\') => out.push(escape(line, at)?),
            Some(c) => out.push(c),
        }
    }
    line.skip();
    Ok(out)
}

/// What stands after the `\` at this offset.
fn escape(line: &mut Line, at: usize) -> Result<char, Problem> {
    let letter = line.character();
    let plain = ESCAPES.iter().find(|(l, _)| Some(*l) == letter).map(|(_, escaped)| *escaped);
    let found = if letter == Some('u') { unicode(line) } else { plain };
    let what = r"this is no escape; there are \\ \' \b \t \n \f \r, and \u with 4 to 6 hex digits of a character";
    found.ok_or_else(|| line.problem_at(at, what.to_owned()))
}

/// The longest run of 4 to 6 hex digits, as in a query.
fn unicode(line: &mut Line) -> Option<char> {
    let digits = line.rest().bytes().take(6).take_while(u8::is_ascii_hexdigit).count();
    let number = u32::from_str_radix(&line.rest()[..digits], 16).ok().filter(|_| digits >= 4)?;
    for _ in 0..digits {
        line.character();
    }
    char::from_u32(number)
}
