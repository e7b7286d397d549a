//! Values as text, and as the bodies of records.

use std::str::FromStr;

use fql::record::{self, ARRAY, NULL};
use fql::types::{BOOLEAN, CHAR16, DATETIME, OCTETS, REAL32, REAL64, REFERENCE, STRING};

use crate::integer::Integer;
use crate::line::Line;
use crate::problem::Problem;
use crate::records::expect_short;
use crate::{hex, quoted};

/// A property's value as text; none for a record that has no such form: of another kind than the property's, or with a
/// body that is no value of its type.
pub fn show(property: u16, kind: u16, body: &[u8]) -> Option<String> {
    match kind {
        NULL if body.is_empty() => Some("NULL".to_owned()),
        _ if kind != property => None,
        _ if kind & ARRAY != 0 => show_array(kind & !ARRAY, body),
        _ => show_scalar(kind, body),
    }
}

fn show_array(plain: u16, body: &[u8]) -> Option<String> {
    let (records, rest) = record::read(body);
    let elements: Option<Vec<String>> = records.iter().map(|e| show(plain, e.kind, e.body)).collect();
    rest.is_empty().then_some(())?;
    Some(format!("{{{}}}", elements?.join(", ")))
}

fn show_scalar(kind: u16, body: &[u8]) -> Option<String> {
    if let Some(integer) = Integer::of(kind) {
        return integer.show(body);
    }
    match kind {
        BOOLEAN => match body {
            [0] => Some("FALSE".to_owned()),
            [1] => Some("TRUE".to_owned()),
            _ => None,
        },
        REAL32 => {
            let x = f32::from_le_bytes(body.try_into().ok()?);
            Some(if x.is_finite() { format!("{x:?}") } else { format!("0x{:08X}", x.to_bits()) })
        }
        REAL64 => {
            let x = f64::from_le_bytes(body.try_into().ok()?);
            Some(if x.is_finite() { format!("{x:?}") } else { format!("0x{:016X}", x.to_bits()) })
        }
        STRING | DATETIME | REFERENCE => Some(quoted::show(std::str::from_utf8(body).ok()?)),
        CHAR16 => {
            let c = char::from_u32(u32::from(u16::from_le_bytes(body.try_into().ok()?)))?;
            Some(quoted::show(c.encode_utf8(&mut [0; 4])))
        }
        OCTETS => Some(format!("0x{}", hex::show(body))),
        _ => None,
    }
}

/// A record for a property of this kind.
pub fn read(line: &mut Line, property: u16) -> Result<Vec<u8>, Problem> {
    let start = line.offset();
    if line.peek_word() == "NULL" {
        line.word();
        return Ok(record::write(NULL, &[]));
    }
    let body = match property & ARRAY {
        0 => read_scalar(line, property)?,
        _ => read_array(line, property & !ARRAY)?,
    };
    expect_short(body.len()).map_err(|what| line.problem_at(start, what))?;
    Ok(record::write(property, &body))
}

fn read_array(line: &mut Line, plain: u16) -> Result<Vec<u8>, Problem> {
    line.expect("{")?;
    let mut body = Vec::new();
    if line.take("}") {
        return Ok(body);
    }
    loop {
        body.extend(read(line, plain)?);
        if line.take("}") {
            return Ok(body);
        }
        line.expect(",")?;
    }
}

fn read_scalar(line: &mut Line, kind: u16) -> Result<Vec<u8>, Problem> {
    if let Some(integer) = Integer::of(kind) {
        return integer.read(line);
    }
    let start = line.offset();
    match kind {
        BOOLEAN => match line.word() {
            "TRUE" => Ok(vec![1]),
            "FALSE" => Ok(vec![0]),
            _ => Err(line.problem_at(start, "TRUE, FALSE or NULL is needed here".to_owned())),
        },
        REAL32 if line.rest().starts_with("0x") => Ok((hex::read_number(line, 8)? as u32).to_le_bytes().to_vec()),
        REAL64 if line.rest().starts_with("0x") => Ok(hex::read_number(line, 16)?.to_le_bytes().to_vec()),
        REAL32 => Ok(real(line, "8", f32::is_finite)?.to_le_bytes().to_vec()),
        REAL64 => Ok(real(line, "16", f64::is_finite)?.to_le_bytes().to_vec()),
        CHAR16 => char16(line),
        OCTETS => hex::read_octets(line),
        _ => Ok(quoted::read(line)?.into_bytes()),
    }
}

/// A finite number; what isn't one is written by its bits.
fn real<T: FromStr + Copy>(line: &mut Line, digits: &str, is_finite: fn(T) -> bool) -> Result<T, Problem> {
    let start = line.offset();
    match line.numeral().parse() {
        Ok(found) if is_finite(found) => Ok(found),
        _ => {
            let what = "a number that is finite, or `0x` and the bits in";
            Err(line.problem_at(start, format!("{what} {digits} hex digits, is needed here")))
        }
    }
}

fn char16(line: &mut Line) -> Result<Vec<u8>, Problem> {
    let start = line.offset();
    let text = quoted::read(line)?;
    let mut units = text.encode_utf16();
    match (units.next(), units.next()) {
        (Some(unit), None) => Ok(unit.to_le_bytes().to_vec()),
        _ => Err(line.problem_at(start, "one character up to U+FFFF is needed here".to_owned())),
    }
}
