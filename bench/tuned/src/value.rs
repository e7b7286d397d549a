//! Values, and how two of them stand to each other (01, "Meaning"). A set of ways to stand is a set of bits, so that an
//! operator is one mask.

use crate::bytes::{signed, unsigned, word};
use crate::datetime::{self, Datetime};
use crate::kind::Type;
use crate::token::Operator;

#[derive(Clone, Copy, Debug)]
pub enum Value<'a> {
    Null,
    Truth(bool),
    Integer(i128),
    Real(f64),
    Bytes(&'a [u8]),
    /// The code point of a char16, or of a literal of one character beside one.
    Character(u32),
    Datetime(Datetime),
}

pub type Order = u8;

pub const BEFORE: Order = 1;
pub const SAME: Order = 2;
pub const AFTER: Order = 4;
/// Neither: other values, or none on one side.
pub const UNDECIDED: Order = 8;
/// NULL on both sides: equal, and neither at most nor at least.
pub const NULLS: Order = 16;

/// Under which orders an operator holds.
pub fn orders_of(operator: Operator) -> Order {
    match operator {
        Operator::Equal => SAME | NULLS,
        Operator::Unequal => BEFORE | AFTER | UNDECIDED,
        Operator::Less => BEFORE,
        Operator::AtMost => BEFORE | SAME,
        Operator::Greater => AFTER,
        Operator::AtLeast => AFTER | SAME,
    }
}

/// The value of a conforming body.
#[inline(always)]
pub fn read(of: Type, body: &[u8]) -> Value<'_> {
    match of {
        Type::Boolean => Value::Truth(body[0] != 0),
        Type::Unsigned => Value::Integer(i128::from(unsigned(body))),
        Type::Signed => Value::Integer(i128::from(signed(body))),
        Type::Real32 => Value::Real(f64::from(f32::from_bits(unsigned(body) as u32))),
        Type::Real64 => Value::Real(f64::from_bits(word(body, 0))),
        Type::Char16 => Value::Character(unsigned(body) as u32),
        Type::Datetime => Value::Datetime(datetime::read(body)),
        Type::Text | Type::Octets | Type::Reference => Value::Bytes(body),
    }
}

#[inline(always)]
pub fn order<T: PartialOrd>(a: T, b: T) -> Order {
    if a < b {
        BEFORE
    } else if a == b {
        SAME
    } else if a > b {
        AFTER
    } else {
        UNDECIDED
    }
}

#[inline(always)]
pub fn same(equal: bool) -> Order {
    if equal {
        SAME
    } else {
        UNDECIDED
    }
}

/// Spans that have a moment in common and aren't the same are undecided, as are a timestamp and an interval.
#[inline(always)]
pub fn order_of_datetimes(a: Datetime, b: Datetime) -> Order {
    if a == b {
        return SAME;
    }
    if a.is_interval != b.is_interval {
        return UNDECIDED;
    }
    if a.highest < b.lowest {
        BEFORE
    } else if a.lowest > b.highest {
        AFTER
    } else {
        UNDECIDED
    }
}

fn is_text_of(character: u32, text: &[u8]) -> bool {
    char::from_u32(character).is_some_and(|c| c.encode_utf8(&mut [0; 4]).as_bytes() == text)
}

#[inline(always)]
pub fn compare(a: Value, b: Value) -> Order {
    match (a, b) {
        (Value::Null, Value::Null) => NULLS,
        (Value::Integer(x), Value::Integer(y)) => order(x, y),
        (Value::Real(x), Value::Real(y)) => order(x, y),
        (Value::Truth(x), Value::Truth(y)) => same(x == y),
        (Value::Bytes(x), Value::Bytes(y)) => same(x == y),
        (Value::Character(x), Value::Character(y)) => same(x == y),
        (Value::Character(x), Value::Bytes(y)) | (Value::Bytes(y), Value::Character(x)) => same(is_text_of(x, y)),
        (Value::Datetime(x), Value::Datetime(y)) => order_of_datetimes(x, y),
        _ => UNDECIDED,
    }
}
