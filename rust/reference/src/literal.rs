//! The value of a literal beside a property of some row (01, "Query text" and "Kinds").

use crate::datetime;
use crate::token::{string, Kind, Token, Word};
use crate::value::{Row, Value};

/// A literal that is no value of its row: the number of its refusal.
pub const OUT_OF_RANGE: u64 = 23;
pub const NO_DATETIME: u64 = 25;

fn text<'a>(query: &'a [u8], token: &Token) -> &'a str {
    std::str::from_utf8(&query[token.start..token.end]).unwrap()
}

/// A number's sign, if it has one, and the rest.
fn unsigned(number: &str) -> (Option<char>, &str) {
    match number.strip_prefix(['+', '-']) {
        Some(rest) => (number.chars().next(), rest),
        None => (None, number),
    }
}

/// Whether a literal is of a sort that the row takes, whatever its value. NULL fits every row.
pub fn fits(query: &[u8], token: &Token, row: Row) -> bool {
    match token.kind {
        Kind::Reserved(Word::Null) => true,
        Kind::Reserved(_) => row == Row::Truth,
        Kind::Decimal | Kind::Binary => row == Row::Integer,
        Kind::Hex if row == Row::Octets => unsigned(text(query, token)).0.is_none(),
        Kind::Hex => row == Row::Integer,
        Kind::Real => row == Row::Real,
        Kind::Text => matches!(row, Row::Text | Row::Datetime | Row::Reference),
        _ => false,
    }
}

/// The value of a literal that fits the row, or the number of its refusal.
pub fn value(query: &[u8], token: &Token, row: Row) -> Result<Value, u64> {
    let written = text(query, token);
    let (sign, number) = unsigned(written);
    let negative = sign == Some('-');
    match token.kind {
        Kind::Reserved(Word::Null) => Ok(Value::Null),
        Kind::Reserved(word) => Ok(Value::Truth(word == Word::True)),
        Kind::Decimal => integer(number, 10, negative),
        Kind::Binary => integer(&number[..number.len() - 1], 2, negative),
        Kind::Hex if row == Row::Octets => Ok(Value::Bytes(octets(&number[2..]))),
        Kind::Hex => integer(&number[2..], 16, negative),
        Kind::Real => real(number, negative).map(Value::Real).ok_or(OUT_OF_RANGE),
        Kind::Text => quoted(written, row),
        other => panic!("{other:?} is no literal"),
    }
}

/// Integers run from −(2^64−1) to 2^64−1, whatever the number of their digits.
fn integer(digits: &str, radix: u32, negative: bool) -> Result<Value, u64> {
    let size = match digits.trim_start_matches('0') {
        "" => 0,
        significant => i128::from(u64::from_str_radix(significant, radix).map_err(|_| OUT_OF_RANGE)?),
    };
    Ok(Value::Integer(if negative { -size } else { size }))
}

fn octets(pairs: &str) -> Vec<u8> {
    let byte = |at: usize| u8::from_str_radix(&pairs[at..at + 2], 16).unwrap();
    (0..pairs.len()).step_by(2).map(byte).collect()
}

/// D × 10^e by one rounded operation: D has its digits without the point, e is the exponent less the digits after the
/// point. D below 10^15 and 10^22 are exact in a real64, so the operation rounds once.
pub fn real(number: &str, negative: bool) -> Option<f64> {
    let (mantissa, exponent) = number.split_once(['e', 'E']).unwrap_or((number, "0"));
    let (whole, fraction) = mantissa.split_once('.')?;
    let digits = format!("{whole}{fraction}");
    let significant = digits.trim_start_matches('0');
    if significant.len() > 15 {
        return None;
    }
    let d: u64 = format!("0{significant}").parse().ok()?;
    // An exponent that no i64 holds is out of range however many digits stand after the point.
    let e = exponent.parse::<i64>().ok()? - fraction.len() as i64;
    let value = match e {
        0..=22 => d as f64 * power_of_ten(e),
        -22..=-1 => d as f64 / power_of_ten(-e),
        _ => return None,
    };
    Some(if negative { -value } else { value })
}

/// Exact up to 10^22, and so is each product on the way.
fn power_of_ten(n: i64) -> f64 {
    (0..n).fold(1.0, |power, _| power * 10.0)
}

fn quoted(written: &str, row: Row) -> Result<Value, u64> {
    let (text, _) = string(written.as_bytes()).unwrap();
    match row {
        Row::Text => Ok(Value::Text(text)),
        Row::Reference => Ok(Value::Bytes(text.into_bytes())),
        Row::Datetime => datetime::parse(text.as_bytes()).map(Value::Datetime).ok_or(NO_DATETIME),
        other => panic!("text doesn't fit {other:?}"),
    }
}

/// The value of an index's digits, none above 65,535.
pub fn index(query: &[u8], start: usize) -> Option<usize> {
    let digits: String = query[start..].iter().take_while(|b| b.is_ascii_digit()).map(|&b| char::from(b)).collect();
    let significant = digits.trim_start_matches('0');
    match significant.len() {
        0 => Some(0),
        1..=5 => significant.parse().ok().filter(|&i| i <= 65_535),
        _ => None,
    }
}
