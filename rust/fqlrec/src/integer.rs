//! Integers as text, and as the bodies of records.

use std::ops::RangeInclusive;

use fql::types::{SINT16, SINT32, SINT64, SINT8, UINT16, UINT32, UINT64, UINT8};

use crate::line::Line;
use crate::problem::Problem;

/// How a type stores its numbers, least byte first.
#[derive(Clone, Copy)]
pub struct Integer {
    width: usize,
    /// Whether in two's complement.
    signed: bool,
}

impl Integer {
    /// None for a type that isn't one of integers.
    pub fn of(kind: u16) -> Option<Integer> {
        let signed = match kind {
            UINT8 | UINT16 | UINT32 | UINT64 => false,
            SINT8 | SINT16 | SINT32 | SINT64 => true,
            _ => return None,
        };
        // The last hex digit is the number of the body's bytes.
        Some(Integer { width: usize::from(kind & 0x0F), signed })
    }

    fn range(self) -> RangeInclusive<i128> {
        let numbers = 1 << (8 * self.width);
        let lowest = if self.signed { -numbers / 2 } else { 0 };
        lowest..=lowest + numbers - 1
    }

    /// None for a body of another length.
    pub fn show(self, body: &[u8]) -> Option<String> {
        if body.len() != self.width {
            return None;
        }
        let negative = self.signed && body[self.width - 1] >= 0x80;
        let mut bytes = [if negative { 0xFF } else { 0 }; 16];
        bytes[..self.width].copy_from_slice(body);
        Some(i128::from_le_bytes(bytes).to_string())
    }

    pub fn read(self, line: &mut Line) -> Result<Vec<u8>, Problem> {
        let start = line.offset();
        let range = self.range();
        match line.numeral().parse() {
            Ok(number) if range.contains(&number) => Ok(number.to_le_bytes()[..self.width].to_vec()),
            _ => {
                let what = format!("a whole number from {} to {} is needed here", range.start(), range.end());
                Err(line.problem_at(start, what))
            }
        }
    }
}
