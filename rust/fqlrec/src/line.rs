//! One line of a text, read from left to right.

use crate::problem::Problem;

pub struct Line<'a> {
    number: usize,
    text: &'a str,
    /// The offset of what stands first, after blanks.
    first: usize,
    at: usize,
}

fn is_blank(c: char) -> bool {
    c == ' ' || c == '\t'
}

fn is_of_word(c: char) -> bool {
    c.is_ascii_alphanumeric() || c == '_'
}

impl<'a> Line<'a> {
    /// `number` counts from 1.
    pub fn new(number: usize, text: &'a str) -> Line<'a> {
        let mut line = Line { number, text, first: 0, at: 0 };
        line.skip();
        line.first = line.at;
        line
    }

    /// Past blanks, and past a comment.
    pub fn skip(&mut self) {
        let rest = self.rest().trim_start_matches(is_blank);
        self.at = if rest.starts_with('#') { self.text.len() } else { self.text.len() - rest.len() };
    }

    pub fn is_indented(&self) -> bool {
        self.text.starts_with(is_blank)
    }

    pub fn is_at_end(&self) -> bool {
        self.at == self.text.len()
    }

    pub fn rest(&self) -> &'a str {
        &self.text[self.at..]
    }

    /// The longest run of such characters, perhaps none, and the blanks behind it.
    pub fn take_while(&mut self, rule: impl Fn(char) -> bool) -> &'a str {
        let rest = self.rest();
        let length = rest.find(|c| !rule(c)).unwrap_or(rest.len());
        self.at += length;
        self.skip();
        &rest[..length]
    }

    /// A run of letters, digits and `_`, perhaps none.
    pub fn word(&mut self) -> &'a str {
        self.take_while(is_of_word)
    }

    /// The same without passing it.
    pub fn peek_word(&self) -> &'a str {
        let rest = self.rest();
        &rest[..rest.find(|c| !is_of_word(c)).unwrap_or(rest.len())]
    }

    /// A run of letters, digits, signs and points, of which numbers are written, perhaps none.
    pub fn numeral(&mut self) -> &'a str {
        self.take_while(|c| c.is_ascii_alphanumeric() || matches!(c, '+' | '-' | '.'))
    }

    /// Whether this stands here; it is then passed.
    pub fn take(&mut self, text: &str) -> bool {
        let found = self.rest().starts_with(text);
        if found {
            self.at += text.len();
            self.skip();
        }
        found
    }

    /// The next character, which may be a blank or a `#`.
    pub fn character(&mut self) -> Option<char> {
        let c = self.rest().chars().next()?;
        self.at += c.len_utf8();
        Some(c)
    }

    pub fn expect(&mut self, text: &str) -> Result<(), Problem> {
        match self.take(text) {
            true => Ok(()),
            false => Err(self.problem(format!("`{text}` is missing here"))),
        }
    }

    pub fn expect_end(&self) -> Result<(), Problem> {
        match self.is_at_end() {
            true => Ok(()),
            false => Err(self.problem("nothing more can stand on this line".to_owned())),
        }
    }

    pub fn number(&self) -> usize {
        self.number
    }

    /// How far the line is read.
    pub fn offset(&self) -> usize {
        self.at
    }

    /// A problem of the whole line.
    pub fn problem_of_line(&self, what: String) -> Problem {
        self.problem_at(self.first, what)
    }

    pub fn problem(&self, what: String) -> Problem {
        self.problem_at(self.at, what)
    }

    pub fn problem_at(&self, offset: usize, what: String) -> Problem {
        Problem { line: self.number, column: 1 + self.text[..offset].chars().count(), what }
    }
}
