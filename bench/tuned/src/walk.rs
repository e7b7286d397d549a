//! Conformance of an instance in one walk, which notes each property's record.

use crate::bytes::half;
use crate::datetime::is_datetime;
use crate::kind::{is_array, Type, ARRAY};
use crate::note::{Extra, Note, ASCII};
use crate::table::PROPERTIES;
use crate::text::{coding, Coding};

pub const ELEMENTS: u16 = 256;

pub type Notes = [Note; PROPERTIES];

/// What a property's record has to be. Where a type has a width, the header says it.
#[derive(Clone, Copy)]
pub struct Expected {
    /// The kind and, where it is fixed, the length; of an array, those of its elements.
    header: u32,
    shape: Shape,
    is_array: bool,
}

#[derive(Clone, Copy, PartialEq, Eq)]
enum Shape {
    Number,
    Boolean,
    Char16,
    Datetime,
    Text,
    Octets,
}

impl Expected {
    /// Of a kind that a table may name.
    pub fn new(kind: u16) -> Expected {
        let of_elements = kind & !ARRAY;
        let (shape, length) = match Type::of(kind).expect("a table's kind") {
            Type::Boolean => (Shape::Boolean, 1),
            Type::Unsigned | Type::Signed => (Shape::Number, of_elements & 0xf),
            Type::Real32 => (Shape::Number, 4),
            Type::Real64 => (Shape::Number, 8),
            Type::Text | Type::Reference => (Shape::Text, 0),
            Type::Char16 => (Shape::Char16, 2),
            Type::Octets => (Shape::Octets, 0),
            Type::Datetime => (Shape::Datetime, 25),
        };
        let header = u32::from(of_elements) << 16 | u32::from(length);
        Expected { header, shape, is_array: is_array(kind) }
    }

    #[inline(always)]
    fn fits(self, header: u32, body: &[u8]) -> Option<Extra> {
        if !self.is_array {
            return self.scalar_fits(header, body);
        }
        let kind = self.header >> 16 | u32::from(ARRAY);
        if header >> 16 == kind {
            self.elements(body)
        } else {
            None
        }
    }

    #[inline(always)]
    fn scalar_fits(self, header: u32, body: &[u8]) -> Option<Extra> {
        let is_kind = header >> 16 == self.header >> 16;
        let is_header = header == self.header;
        let fits = match self.shape {
            Shape::Text if is_kind => return coding(body).map(|found| if found == Coding::Ascii { ASCII } else { 0 }),
            Shape::Text => false,
            Shape::Number => is_header,
            Shape::Datetime => is_header && is_datetime(body),
            Shape::Boolean => is_header && body[0] <= 1,
            Shape::Char16 => is_header && !matches!(u16::from_le_bytes([body[0], body[1]]), 0xd800..=0xdfff),
            Shape::Octets => is_kind,
        };
        fits.then_some(0)
    }

    /// How many there are, if each fits.
    #[inline(always)]
    fn elements(self, body: &[u8]) -> Option<Extra> {
        let (mut at, mut count) = (0, 0);
        while at < body.len() {
            let (header, next) = record(body, at)?;
            let fits = header == 0 || self.scalar_fits(header, &body[at + 4..next]).is_some();
            if !fits || count == ELEMENTS {
                return None;
            }
            count += 1;
            at = next;
        }
        Some(count)
    }
}

/// The header of the whole record that starts here, and where the next one does.
#[inline(always)]
pub fn record(bytes: &[u8], at: usize) -> Option<(u32, usize)> {
    if bytes.len() - at < 4 {
        return None;
    }
    let header = half(bytes, at);
    let next = at + 4 + (header & 0xffff) as usize;
    (next <= bytes.len()).then_some((header, next))
}

/// Notes the record of each property, or says where the first fault is. Subclass records behind them may be anything.
#[inline(always)]
pub fn walk(expected: &[Expected], instance: &[u8], notes: &mut Notes) -> Result<(), usize> {
    let mut at = 0;
    for (expected, note) in expected.iter().zip(notes) {
        let (header, next) = record(instance, at).ok_or(at)?;
        *note = match expected.fits(header, &instance[at + 4..next]) {
            Some(extra) => Note::new(header, at, extra),
            None if header == 0 => Note::NULL,
            None => return Err(at),
        };
        at = next;
    }
    while at < instance.len() {
        (_, at) = record(instance, at).ok_or(at)?;
    }
    Ok(())
}
