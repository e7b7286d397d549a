//! The tokens of a query, each told by its first byte.

use crate::name::{is_first, is_part, reserved};
use crate::string::{byte, end};

/// All in one byte, which is written and read at once; in an order in which reserved words, words and numbers, and
/// literals but those that are words stand side by side.
#[derive(Clone, Copy, Debug, PartialEq, Eq)]
pub enum Kind {
    End,
    NoToken,
    Name,
    And,
    Any,
    Every,
    False,
    Like,
    Not,
    Null,
    Or,
    True,
    Decimal,
    Binary,
    Hex,
    Real,
    Text,
    Equal,
    Unequal,
    Less,
    AtMost,
    Greater,
    AtLeast,
    OpenGroup,
    CloseGroup,
    OpenIndex,
    CloseIndex,
    OpenArray,
    CloseArray,
    Comma,
    Dot,
}

#[derive(Clone, Copy, Debug, PartialEq, Eq)]
pub enum Operator {
    Equal,
    Unequal,
    Less,
    AtMost,
    Greater,
    AtLeast,
}

/// Small enough for a register.
#[derive(Clone, Copy, Debug)]
pub struct Token {
    pub kind: Kind,
    start: u16,
    end: u16,
}

impl Token {
    fn new(kind: Kind, start: usize, end: usize) -> Token {
        Token { kind, start: start as u16, end: end as u16 }
    }

    pub fn start(self) -> usize {
        usize::from(self.start)
    }

    pub fn end(self) -> usize {
        usize::from(self.end)
    }
}

impl Kind {
    fn is_reserved(self) -> bool {
        (Kind::And as u8..=Kind::True as u8).contains(&(self as u8))
    }

    pub fn is_name(self) -> bool {
        self == Kind::Name || self.is_reserved()
    }

    fn is_word_or_number(self) -> bool {
        (Kind::Name as u8..=Kind::Real as u8).contains(&(self as u8))
    }

    pub fn is_literal(self) -> bool {
        let is_word = matches!(self, Kind::True | Kind::False | Kind::Null);
        is_word || (Kind::Decimal as u8..=Kind::Text as u8).contains(&(self as u8))
    }

    pub fn operator(self) -> Option<Operator> {
        Some(match self {
            Kind::Equal => Operator::Equal,
            Kind::Unequal => Operator::Unequal,
            Kind::Less => Operator::Less,
            Kind::AtMost => Operator::AtMost,
            Kind::Greater => Operator::Greater,
            Kind::AtLeast => Operator::AtLeast,
            _ => return None,
        })
    }
}

/// The token behind another; a word or a number doesn't touch one.
#[inline]
pub fn after(query: &[u8], token: Token) -> Token {
    let next = at(query, token.end());
    let touches = next.start == token.end && token.kind.is_word_or_number() && next.kind.is_word_or_number();
    if touches {
        Token::new(Kind::NoToken, next.start(), next.start())
    } else {
        next
    }
}

/// The first token from here on.
#[inline]
pub fn at(query: &[u8], from: usize) -> Token {
    let spaces = query[from..].iter().take_while(|&&byte| matches!(byte, b' ' | b'\t' | b'\r' | b'\n')).count();
    let start = from + spaces;
    let (kind, end) = match query.get(start) {
        None => (Kind::End, start),
        Some(&first) => starting(query, start, first).unwrap_or((Kind::NoToken, start)),
    };
    Token::new(kind, start, end)
}

#[inline]
fn starting(query: &[u8], start: usize, first: u8) -> Option<(Kind, usize)> {
    let of = |kind, length| Some((kind, start + length));
    let second = || byte(query, start + 1);
    match first {
        _ if is_first(first) => Some(word(query, start)),
        b'0'..=b'9' | b'+' | b'-' => number(query, start),
        b'.' if second().is_ascii_digit() => number(query, start),
        b'\'' => end(query, start + 1).map(|end| (Kind::Text, end)),
        b'=' => of(Kind::Equal, 1),
        b'<' => match second() {
            b'>' => of(Kind::Unequal, 2),
            b'=' => of(Kind::AtMost, 2),
            _ => of(Kind::Less, 1),
        },
        b'>' if second() == b'=' => of(Kind::AtLeast, 2),
        b'>' => of(Kind::Greater, 1),
        b'(' => of(Kind::OpenGroup, 1),
        b')' => of(Kind::CloseGroup, 1),
        b'[' => of(Kind::OpenIndex, 1),
        b']' => of(Kind::CloseIndex, 1),
        b'{' => of(Kind::OpenArray, 1),
        b'}' => of(Kind::CloseArray, 1),
        b',' => of(Kind::Comma, 1),
        b'.' => of(Kind::Dot, 1),
        _ => None,
    }
}

#[inline]
fn word(query: &[u8], start: usize) -> (Kind, usize) {
    let length = query[start..].iter().take_while(|&&byte| is_part(byte)).count();
    let name = &query[start..start + length];
    (reserved(name).unwrap_or(Kind::Name), start + length)
}

#[inline]
fn digits(query: &[u8], from: usize) -> usize {
    from + query[from..].iter().take_while(|byte| byte.is_ascii_digit()).count()
}

#[inline]
fn is_sign(byte: u8) -> bool {
    matches!(byte, b'+' | b'-')
}

/// The longest number; what follows its first digits tells which.
#[inline]
fn number(query: &[u8], start: usize) -> Option<(Kind, usize)> {
    let first = start + usize::from(is_sign(query[start]));
    let whole = digits(query, first);
    let decimal = (whole > first).then_some((Kind::Decimal, whole));
    match byte(query, whole) {
        b'.' => {
            let fraction = digits(query, whole + 1);
            let has_digits = whole > first || fraction > whole + 1;
            if has_digits {
                Some((Kind::Real, exponent(query, fraction)))
            } else {
                decimal
            }
        }
        b'b' | b'B' if whole > first && query[first..whole].iter().all(|&digit| digit <= b'1') => {
            Some((Kind::Binary, whole + 1))
        }
        b'x' | b'X' if query[first..whole] == *b"0" => match pairs(query, whole + 1) {
            0 => decimal,
            pairs => Some((Kind::Hex, whole + 1 + 2 * pairs)),
        },
        _ => decimal,
    }
}

fn pairs(query: &[u8], from: usize) -> usize {
    query[from..].iter().take_while(|byte| byte.is_ascii_hexdigit()).count() / 2
}

/// The end of a real whose fraction ends here.
fn exponent(query: &[u8], at: usize) -> usize {
    if !matches!(byte(query, at), b'e' | b'E') {
        return at;
    }
    let first = at + 1 + usize::from(is_sign(byte(query, at + 1)));
    if !byte(query, first).is_ascii_digit() {
        return at;
    }
    digits(query, first)
}
