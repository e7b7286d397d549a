//! The types of values. A property's kind is its type, and for an array of it [`ARRAY`](crate::record::ARRAY) more.
//!
//! Of an integer's type the last hex digit is the number of its body's bytes, and the digit before it is 1 without a
//! sign and 2 with one. Any two integers may be compared, as whole numbers.

/// One byte, 0 or 1.
pub const BOOLEAN: u16 = 1;
/// An unsigned integer of one byte.
pub const UINT8: u16 = 0x0011;
/// An unsigned integer of 2 bytes.
pub const UINT16: u16 = 0x0012;
/// An unsigned integer of 4 bytes.
pub const UINT32: u16 = 0x0014;
/// An unsigned integer of 8 bytes.
pub const UINT64: u16 = 0x0018;
/// A signed integer of one byte, in two's complement.
pub const SINT8: u16 = 0x0021;
/// A signed integer of 2 bytes, in two's complement.
pub const SINT16: u16 = 0x0022;
/// A signed integer of 4 bytes, in two's complement.
pub const SINT32: u16 = 0x0024;
/// A signed integer of 8 bytes, in two's complement.
pub const SINT64: u16 = 0x0028;
/// A real number of 4 bytes, IEEE 754.
pub const REAL32: u16 = 4;
/// A real number of 8 bytes, IEEE 754.
pub const REAL64: u16 = 5;
/// A text in UTF-8.
pub const STRING: u16 = 6;
/// One character up to U+FFFF, in 2 bytes.
pub const CHAR16: u16 = 7;
/// Bytes of any number and content.
pub const OCTETS: u16 = 8;
/// A timestamp or an interval, in 25 bytes: `yyyymmddhhmmss.mmmmmm`, a sign and three digits of minutes from UTC, or
/// `ddddddddhhmmss.mmmmmm:000`.
///
/// `*` stands for a digit that isn't known, from the start of a field or from any microsecond digit on up to the last
/// microsecond digit. Such a datetime is compared by the lowest and the highest moment that it may stand for: it is less
/// than another if its highest is before the other's lowest, and equal to it if both have the same ends. Of two that
/// are neither equal nor in order `<>` alone holds.
///
/// ```
/// use fql::{record, types, Verdict};
///
/// let table = [record::write(record::CLASS, b"P"), record::write(types::DATETIME, b"Since")].concat();
/// let some_moment = record::write(types::DATETIME, b"200510031122**.******+000");
/// let verdict = |query: &[u8]| fql::evaluate(query, &table, &some_moment).unwrap().verdict;
///
/// assert_eq!(verdict(b"Since < '20051003112300.000000+000'"), Verdict::Included);
/// assert_eq!(verdict(b"Since <= '20051003112200.000000+000'"), Verdict::Excluded);
/// assert_eq!(verdict(b"Since > '20051003112200.000000+000'"), Verdict::Excluded);
/// ```
pub const DATETIME: u16 = 9;
/// A reference to an instance, in UTF-8.
pub const REFERENCE: u16 = 10;
