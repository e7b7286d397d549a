//! The values of literals: refusals 23 and 25.

use crate::datetime::{self, is_datetime, Datetime};
use crate::kind::{Row, Type};
use crate::refusal::{refuse, Refusal};
use crate::string::unescape;
use crate::text;
use crate::token::{Kind, Token};
use crate::value::Value;
use std::ops::Range;

#[derive(Clone, Debug)]
pub enum Literal {
    Null,
    Truth(bool),
    Integer(i128),
    Real(f64),
    /// A part of the pool, and its character where it has only one.
    Bytes(Range<usize>, Option<u32>),
    Datetime(Datetime),
}

impl Literal {
    /// The value beside one of this type.
    #[inline(always)]
    pub fn value<'a>(&self, pool: &'a [u8], beside: Type) -> Value<'a> {
        match self {
            Literal::Null => Value::Null,
            Literal::Truth(truth) => Value::Truth(*truth),
            Literal::Integer(number) => Value::Integer(*number),
            Literal::Real(number) => Value::Real(*number),
            Literal::Bytes(_, Some(character)) if beside == Type::Char16 => Value::Character(*character),
            Literal::Bytes(part, _) => Value::Bytes(&pool[part.clone()]),
            Literal::Datetime(datetime) => Value::Datetime(*datetime),
        }
    }
}

/// Whether a literal is of a sort that the row takes, whatever its value.
pub fn fits(query: &[u8], token: Token, row: Row) -> bool {
    match token.kind {
        Kind::Null => true,
        Kind::True | Kind::False => row == Row::Truth,
        Kind::Decimal | Kind::Binary => row == Row::Integer,
        Kind::Hex => row == Row::Integer || row == Row::Octets && query[token.start()] == b'0',
        Kind::Real => row == Row::Real,
        Kind::Text => matches!(row, Row::Text | Row::Datetime | Row::Reference),
        _ => false,
    }
}

/// The value of a literal that fits the row.
pub fn read(query: &[u8], token: Token, row: Row, pool: &mut Vec<u8>) -> Result<Literal, Refusal> {
    let written = &query[token.start()..token.end()];
    let unsigned = written.strip_prefix(b"+").or(written.strip_prefix(b"-")).unwrap_or(written);
    let is_negative = written[0] == b'-';
    let integer = |digits: &[u8], base| match whole(digits, base) {
        Some(size) => Ok(Literal::Integer(if is_negative { -i128::from(size) } else { i128::from(size) })),
        None => refuse(23, token.start()),
    };
    match token.kind {
        Kind::Null => Ok(Literal::Null),
        Kind::True | Kind::False => Ok(Literal::Truth(token.kind == Kind::True)),
        Kind::Decimal => integer(unsigned, 10),
        Kind::Binary => integer(&unsigned[..unsigned.len() - 1], 2),
        Kind::Hex if row == Row::Integer => integer(&unsigned[2..], 16),
        Kind::Hex => Ok(octets(&unsigned[2..], pool)),
        Kind::Real => match real(unsigned) {
            Some(size) => Ok(Literal::Real(if is_negative { -size } else { size })),
            None => refuse(23, token.start()),
        },
        _ => quoted(query, token, row, pool),
    }
}

fn quoted(query: &[u8], token: Token, row: Row, pool: &mut Vec<u8>) -> Result<Literal, Refusal> {
    let start = pool.len();
    unescape(query, token.start(), token.end(), pool);
    let text = &pool[start..];
    if row != Row::Datetime {
        let only = (text::count(text) == 1).then(|| text::first(text).0);
        return Ok(Literal::Bytes(start..pool.len(), only));
    }
    if !is_datetime(text) {
        return refuse(25, token.start());
    }
    let datetime = datetime::read(text);
    pool.truncate(start);
    Ok(Literal::Datetime(datetime))
}

fn digit(byte: u8) -> u64 {
    u64::from(char::from(byte).to_digit(16).expect("a digit of the token"))
}

/// Integers run to 2^64 − 1, whatever the number of their digits.
fn whole(digits: &[u8], base: u64) -> Option<u64> {
    digits.iter().try_fold(0u64, |n, &byte| n.checked_mul(base)?.checked_add(digit(byte)))
}

fn octets(pairs: &[u8], pool: &mut Vec<u8>) -> Literal {
    let start = pool.len();
    pool.extend(pairs.chunks_exact(2).map(|pair| (digit(pair[0]) * 16 + digit(pair[1])) as u8));
    Literal::Bytes(start..pool.len(), None)
}

const POWERS: [f64; 23] = [
    1e0, 1e1, 1e2, 1e3, 1e4, 1e5, 1e6, 1e7, 1e8, 1e9, 1e10, 1e11, 1e12, 1e13, 1e14, 1e15, 1e16, 1e17, 1e18, 1e19, 1e20,
    1e21, 1e22,
];
/// Digits below this are exact in a real64.
const DIGITS: u64 = 1_000_000_000_000_000;
/// An exponent is far out of range long before this.
const FAR: i64 = 1 << 40;

/// Digits times a power of ten, both exact, so that one operation rounds.
fn real(written: &[u8]) -> Option<f64> {
    let (mut number, mut fraction, mut behind_point, mut at) = (0, 0, false, 0);
    while at < written.len() && !matches!(written[at], b'e' | b'E') {
        if written[at] == b'.' {
            behind_point = true;
        } else {
            number = number * 10 + digit(written[at]);
            fraction += i64::from(behind_point);
        }
        if number >= DIGITS {
            return None;
        }
        at += 1;
    }
    let exponent = written.get(at + 1..).map_or(0, exponent) - fraction;
    let power = POWERS.get(exponent.unsigned_abs() as usize)?;
    Some(if exponent < 0 { number as f64 / power } else { number as f64 * power })
}

fn exponent(written: &[u8]) -> i64 {
    let digits = written.strip_prefix(b"+").or(written.strip_prefix(b"-")).unwrap_or(written);
    let size = digits.iter().fold(0, |n: i64, &byte| (n * 10 + digit(byte) as i64).min(FAR));
    if written[0] == b'-' {
        -size
    } else {
        size
    }
}

/// The value of an index whose digits start here.
pub fn index(query: &[u8], start: usize) -> Option<u16> {
    let digits = query[start..].iter().take_while(|byte| byte.is_ascii_digit());
    let value = digits.fold(0, |n: u32, &byte| (n * 10 + u32::from(byte - b'0')).min(1 << 20));
    u16::try_from(value).ok()
}
