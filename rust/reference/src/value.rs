//! Values, the rows of types that may meet, and how two values compare (01, "Kinds" and "Meaning").

use std::cmp::Ordering;

use crate::datetime::{self, Datetime};
use crate::integer;
use crate::kind::{type_of, BOOLEAN, CHAR16, DATETIME, INTEGERS, NULL, OCTETS, REAL32, REAL64, REFERENCE, STRING};
use crate::token::Operator;

#[derive(Clone, Debug, PartialEq)]
pub enum Value {
    Null,
    Truth(bool),
    Integer(i128),
    Real(f64),
    /// A string, or a char16 as a text of one character.
    Text(String),
    /// Octets, or the UTF-8 of a reference.
    Bytes(Vec<u8>),
    Datetime(Datetime),
}

/// The rows of DSP0212's Table 1 as 01 lists them, {1} {4,5} {6,7} {8} {9} {10}, and 02's one row for all integers.
#[derive(Clone, Copy, Debug, PartialEq, Eq)]
pub enum Row {
    Truth,
    Integer,
    Real,
    Text,
    Octets,
    Datetime,
    Reference,
}

impl Row {
    /// The row of a property's kind, an array's being that of its elements.
    pub fn of(kind: u16) -> Row {
        match type_of(kind) {
            BOOLEAN => Row::Truth,
            REAL32 | REAL64 => Row::Real,
            STRING | CHAR16 => Row::Text,
            OCTETS => Row::Octets,
            DATETIME => Row::Datetime,
            REFERENCE => Row::Reference,
            other if INTEGERS.contains(&other) => Row::Integer,
            other => panic!("no table has the type {other}"),
        }
    }

    pub fn has_order(self) -> bool {
        matches!(self, Row::Integer | Row::Real | Row::Datetime)
    }
}

impl Value {
    /// The value of a conforming body of this type.
    pub fn decode(kind: u16, body: &[u8]) -> Value {
        match kind {
            NULL => Value::Null,
            BOOLEAN => Value::Truth(body[0] == 1),
            REAL32 => Value::Real(f64::from(f32::from_le_bytes(body.try_into().unwrap()))),
            REAL64 => Value::Real(f64::from_le_bytes(body.try_into().unwrap())),
            STRING => Value::Text(String::from_utf8(body.to_vec()).unwrap()),
            CHAR16 => {
                let unit = u16::from_le_bytes(body.try_into().unwrap());
                Value::Text(char::from_u32(u32::from(unit)).unwrap().to_string())
            }
            OCTETS | REFERENCE => Value::Bytes(body.to_vec()),
            DATETIME => Value::Datetime(datetime::parse(body).unwrap()),
            _ if INTEGERS.contains(&kind) => Value::Integer(integer::read(kind, body).unwrap()),
            other => panic!("no scalar has the kind {other}"),
        }
    }
}

/// `=`: NULL equals only NULL.
pub fn equal(a: &Value, b: &Value) -> bool {
    match (a, b) {
        (Value::Null, Value::Null) => true,
        (Value::Null, _) | (_, Value::Null) => false,
        (Value::Truth(x), Value::Truth(y)) => x == y,
        (Value::Text(x), Value::Text(y)) => x == y,
        (Value::Bytes(x), Value::Bytes(y)) => x == y,
        _ => order(a, b) == Some(Ordering::Equal),
    }
}

/// How two values of one ordered row stand to each other; NULL and NaN do not, nor do datetimes that are undecided.
fn order(a: &Value, b: &Value) -> Option<Ordering> {
    match (a, b) {
        (Value::Null, _) | (_, Value::Null) => None,
        (Value::Integer(x), Value::Integer(y)) => Some(x.cmp(y)),
        (Value::Real(x), Value::Real(y)) => x.partial_cmp(y),
        (Value::Datetime(x), Value::Datetime(y)) => datetime::order(*x, *y),
        _ => panic!("{a:?} and {b:?} are of rows that the check keeps apart"),
    }
}

/// Whether a comparison of two values holds. `<>` is the reverse of `=`; values without an order hold under no order
/// operator.
pub fn holds(a: &Value, operator: Operator, b: &Value) -> bool {
    let ordered = |allowed: &[Ordering]| order(a, b).is_some_and(|found| allowed.contains(&found));
    match operator {
        Operator::Equal => equal(a, b),
        Operator::Unequal => !equal(a, b),
        Operator::Less => ordered(&[Ordering::Less]),
        Operator::AtMost => ordered(&[Ordering::Less, Ordering::Equal]),
        Operator::Greater => ordered(&[Ordering::Greater]),
        Operator::AtLeast => ordered(&[Ordering::Greater, Ordering::Equal]),
    }
}
