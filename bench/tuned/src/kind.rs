//! The types that a table's kinds name, and the rows of types that may meet (01, "Kinds"; 02, Q-2).

pub const ARRAY: u16 = 0x0100;
pub const CLASS: u16 = 0x0200;
pub const INSTANCE: u16 = 0x0300;

/// An integer's width is its body's length, so that one type stands for four kinds.
#[derive(Clone, Copy, Debug, PartialEq, Eq)]
pub enum Type {
    Boolean,
    Unsigned,
    Signed,
    Real32,
    Real64,
    Text,
    Char16,
    Octets,
    Datetime,
    Reference,
}

#[derive(Clone, Copy, Debug, PartialEq, Eq)]
pub enum Row {
    Truth,
    Integer,
    Real,
    Text,
    Octets,
    Datetime,
    Reference,
}

impl Type {
    /// The type of a scalar kind, or of an array's elements.
    pub fn of(kind: u16) -> Option<Type> {
        Some(match kind & !ARRAY {
            0x01 => Type::Boolean,
            0x11 | 0x12 | 0x14 | 0x18 => Type::Unsigned,
            0x21 | 0x22 | 0x24 | 0x28 => Type::Signed,
            0x04 => Type::Real32,
            0x05 => Type::Real64,
            0x06 => Type::Text,
            0x07 => Type::Char16,
            0x08 => Type::Octets,
            0x09 => Type::Datetime,
            0x0a => Type::Reference,
            _ => return None,
        })
    }

    pub fn row(self) -> Row {
        match self {
            Type::Boolean => Row::Truth,
            Type::Unsigned | Type::Signed => Row::Integer,
            Type::Real32 | Type::Real64 => Row::Real,
            Type::Text | Type::Char16 => Row::Text,
            Type::Octets => Row::Octets,
            Type::Datetime => Row::Datetime,
            Type::Reference => Row::Reference,
        }
    }
}

impl Row {
    pub fn has_order(self) -> bool {
        matches!(self, Row::Integer | Row::Real | Row::Datetime)
    }
}

pub fn is_array(kind: u16) -> bool {
    kind & ARRAY != 0
}
