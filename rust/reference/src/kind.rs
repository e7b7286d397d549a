//! The kinds of records by name (01, "Records"; 02, Q-2). A property's kind is its type, and for an array of it `ARRAY`
//! more.

pub const NULL: u16 = 0;
pub const BOOLEAN: u16 = 1;
pub const REAL32: u16 = 4;
pub const REAL64: u16 = 5;
pub const STRING: u16 = 6;
pub const CHAR16: u16 = 7;
pub const OCTETS: u16 = 8;
pub const DATETIME: u16 = 9;
pub const REFERENCE: u16 = 10;

pub const UINT8: u16 = 0x0011;
pub const UINT16: u16 = 0x0012;
pub const UINT32: u16 = 0x0014;
pub const UINT64: u16 = 0x0018;
pub const SINT8: u16 = 0x0021;
pub const SINT16: u16 = 0x0022;
pub const SINT32: u16 = 0x0024;
pub const SINT64: u16 = 0x0028;

pub const ARRAY: u16 = 0x0100;
pub const CLASS: u16 = 0x0200;
pub const INSTANCE: u16 = 0x0300;

pub const INTEGERS: [u16; 8] = [UINT8, UINT16, UINT32, UINT64, SINT8, SINT16, SINT32, SINT64];

/// The types that a table may name.
pub const TYPES: [u16; 16] = [
    BOOLEAN, REAL32, REAL64, STRING, CHAR16, OCTETS, DATETIME, REFERENCE, UINT8, UINT16, UINT32, UINT64, SINT8, SINT16,
    SINT32, SINT64,
];

pub fn is_array(kind: u16) -> bool {
    kind & ARRAY != 0
}

/// The type of a property's values, an array's being that of its elements.
pub fn type_of(kind: u16) -> u16 {
    kind & !ARRAY
}

/// Whether a table may have a property of this kind.
pub fn is_of_a_table(kind: u16) -> bool {
    TYPES.contains(&type_of(kind))
}
