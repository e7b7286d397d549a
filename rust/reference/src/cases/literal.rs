//! Random literals: of a value that is near the ones in the instance, or of any, in any of its spellings.

use super::datetime;
use super::tokens::in_any_case;
use super::value;
use crate::integer;
use crate::kind::TYPES;
use crate::random::Random;
use crate::value::{Row, Value};

/// A literal that fits a property of this plain type, often of the value near by. Never NULL.
pub fn fitting(r: &mut Random, kind: u16, near: Option<&[u8]>) -> String {
    let body = match near {
        Some(body) if body.len() <= 200 && !r.chance(3) => body.to_vec(),
        _ => value::body(r, kind),
    };
    match Row::of(kind) {
        Row::Truth => truth(r, body[0] == 1),
        Row::Integer => near_integer(r, kind, &body),
        Row::Real => near_real(r, kind, &body),
        Row::Octets => octets(r, &body),
        Row::Datetime => {
            let text = String::from_utf8(body).unwrap();
            let text = datetime::near(r, &text);
            quoted(r, &text)
        }
        Row::Text | Row::Reference => match Value::decode(kind, &body) {
            Value::Text(text) => quoted(r, &text),
            _ => quoted(r, &String::from_utf8(body).unwrap()),
        },
    }
}

pub fn null(r: &mut Random) -> String {
    in_any_case(r, "NULL")
}

pub fn truth(r: &mut Random, x: bool) -> String {
    in_any_case(r, if x { "TRUE" } else { "FALSE" })
}

fn near_integer(r: &mut Random, kind: u16, body: &[u8]) -> String {
    let Value::Integer(n) = Value::decode(kind, body) else { unreachable!() };
    let most = i128::from(u64::MAX);
    let (lowest, highest) = integer::range(kind);
    // Numbers that stand so far apart have the same bytes at this width.
    let modulus = highest - lowest + 1;
    let moved = match r.below(7) {
        0 => n + 1,
        1 => n - 1,
        2 => -n,
        3 if r.chance(6) => r.pick(&[most, -most, most - 1, 1 - most, i128::from(i64::MIN) - 1]),
        4 => n + r.pick(&[modulus, -modulus]),
        _ => n,
    };
    integer(r, moved.clamp(-most, most))
}

fn zeros(r: &mut Random) -> String {
    match r.below(8) {
        0 => "0".repeat(1 + r.below(30)),
        _ => String::new(),
    }
}

fn sign(r: &mut Random, negative: bool) -> &'static str {
    match negative {
        true => "-",
        false => r.pick(&["", "", "", "", "+"]),
    }
}

pub fn hex_pairs(r: &mut Random, digits: &str) -> String {
    let even = if digits.len() % 2 == 1 { "0" } else { "" };
    let upper = r.chance(2);
    let digits = if upper { digits.to_ascii_uppercase() } else { digits.to_owned() };
    format!("{}{even}{digits}", r.pick(&["0x", "0X"]))
}

/// A whole number in decimal, binary or hex.
pub fn integer(r: &mut Random, n: i128) -> String {
    let negative = n < 0 || (n == 0 && r.chance(6));
    let (sign, size, zeros) = (sign(r, negative), n.unsigned_abs(), zeros(r));
    match r.below(4) {
        0 => format!("{sign}{zeros}{size:b}{}", r.pick(&["B", "b"])),
        1 => format!("{sign}{}", hex_pairs(r, &format!("{zeros}{size:x}"))),
        _ => format!("{sign}{zeros}{size}"),
    }
}

/// Octets; no literal writes none at all.
fn octets(r: &mut Random, body: &[u8]) -> String {
    let digits: String = body.iter().map(|b| format!("{b:02x}")).collect();
    match digits.as_str() {
        "" => hex_pairs(r, "00"),
        digits => hex_pairs(r, digits),
    }
}

fn near_real(r: &mut Random, kind: u16, body: &[u8]) -> String {
    let Value::Real(x) = Value::decode(kind, body) else { unreachable!() };
    match shortest(x) {
        Some((digits, e)) => real(r, x.is_sign_negative(), &digits, e),
        None => {
            let e = r.below(45) as i64 - 22;
            let digits = digits(r);
            let negative = r.chance(2);
            real(r, negative, &digits, e)
        }
    }
}

fn digits(r: &mut Random) -> String {
    let n = 1 + r.below(15);
    (0..n).map(|_| char::from(b'0' + r.below(10) as u8)).collect()
}

/// The fewest digits D and the exponent e that give this value back, if both are in range.
fn shortest(x: f64) -> Option<(String, i64)> {
    let written = format!("{:e}", x.is_finite().then(|| x.abs())?);
    let (mantissa, exponent) = written.split_once('e')?;
    let (whole, fraction) = mantissa.split_once('.').unwrap_or((mantissa, ""));
    let e = exponent.parse::<i64>().ok()? - fraction.len() as i64;
    let digits = format!("{whole}{fraction}");
    (digits.len() <= 15 && (-22..=22).contains(&e)).then_some((digits, e))
}

/// D × 10^e with the point at any place among the digits.
pub fn real(r: &mut Random, negative: bool, digits: &str, e: i64) -> String {
    let padded = format!("{}{digits}", zeros(r));
    let after = r.below(padded.len() + 1);
    let (whole, fraction) = padded.split_at(padded.len() - after);
    let exponent = e + after as i64;
    let sign = sign(r, negative);
    if exponent == 0 && !r.chance(4) {
        return format!("{sign}{whole}.{fraction}");
    }
    let mark = r.pick(&["e", "E"]);
    let plus = if exponent >= 0 { r.pick(&["", "+", "0", "+00"]) } else { "" };
    format!("{sign}{whole}.{fraction}{mark}{plus}{exponent}")
}

/// A string literal: raw characters where they may stand, and escapes where they must or by chance.
pub fn quoted(r: &mut Random, text: &str) -> String {
    let mut out = "'".to_owned();
    let characters: Vec<char> = text.chars().collect();
    let often = r.chance(6);
    for (n, &c) in characters.iter().enumerate() {
        let next = characters.get(n + 1);
        let raw = !matches!(c, '\0'..='\u{1f}' | '\'' | '\\' | '\u{fffe}' | '\u{ffff}');
        match raw && !(often && r.chance(2)) {
            true => out.push(c),
            false => out.push_str(&escaped(r, c, next.is_some_and(char::is_ascii_hexdigit))),
        }
    }
    out + "'"
}

/// A digit after a `\u` of less than six would be taken for one of its own.
fn escaped(r: &mut Random, c: char, digit_follows: bool) -> String {
    let short = match c {
        '\\' => "\\\\",
        '\'' => "\\'",
        '\u{8}' => "\\b",
        '\t' => "\\t",
        '\n' => "\\n",
        '\u{c}' => "\\f",
        '\r' => "\\r",
        _ => "",
    };
    if !short.is_empty() && !r.chance(3) {
        return short.to_owned();
    }
    let width = if digit_follows { 6 } else { 4 + r.below(3) };
    match r.chance(2) {
        true => format!("\\u{:0width$X}", u32::from(c)),
        false => format!("\\u{:0width$x}", u32::from(c)),
    }
}

/// A literal of any sort.
pub fn any(r: &mut Random) -> String {
    match r.below(12) {
        0 => null(r),
        1 => signed_hex(r),
        2 => beyond(r),
        _ => {
            let kind = r.pick(&TYPES);
            fitting(r, kind, None)
        }
    }
}

pub fn signed_hex(r: &mut Random) -> String {
    let digits = format!("{:x}", r.word() >> r.below(64));
    format!("{}{}", r.pick(&["+", "-"]), hex_pairs(r, &digits))
}

/// A number out of range, whole or real.
pub fn beyond(r: &mut Random) -> String {
    match r.chance(2) {
        true => beyond_integers(r),
        false => beyond_reals(r),
    }
}

pub fn beyond_integers(r: &mut Random) -> String {
    let first = i128::from(u64::MAX) + 1;
    let n = match r.below(3) {
        0 => first,
        1 => first + r.below(1_000) as i128,
        _ => first << (1 + r.below(40)),
    };
    let n = if r.chance(2) { -n } else { n };
    integer(r, n)
}

pub fn beyond_reals(r: &mut Random) -> String {
    let negative = r.chance(2);
    let digits = digits(r);
    match r.below(4) {
        0 => {
            let many = r.pick(&["1000000000000000", "9999999999999999", "12345678901234567890"]);
            real(r, negative, many, 0)
        }
        1 => {
            let e = 23 + r.below(3) as i64;
            real(r, negative, &digits, e)
        }
        2 => {
            let e = r.pick(&[-23, -24, 23, 24, 400, -400, 99_999, -99_999]);
            real(r, negative, &digits, e)
        }
        _ => {
            let e = r.pick(&[23, -23]);
            real(r, negative, "0", e)
        }
    }
}
