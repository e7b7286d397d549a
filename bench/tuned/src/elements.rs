//! The elements of an array that conforms.

use crate::bytes::half;
use crate::kind::Type;
use crate::value::{read, Value};

pub struct Elements<'a> {
    rest: &'a [u8],
    of: Type,
}

impl<'a> Elements<'a> {
    #[inline(always)]
    pub fn new(body: &'a [u8], of: Type) -> Elements<'a> {
        Elements { rest: body, of }
    }

    /// The header and the body of the next record.
    #[inline(always)]
    fn record(&mut self) -> Option<(u32, &'a [u8])> {
        if self.rest.is_empty() {
            return None;
        }
        let header = half(self.rest, 0);
        let (body, rest) = self.rest[4..].split_at((header & 0xffff) as usize);
        self.rest = rest;
        Some((header, body))
    }
}

impl<'a> Iterator for Elements<'a> {
    type Item = Value<'a>;

    #[inline(always)]
    fn next(&mut self) -> Option<Value<'a>> {
        let (header, body) = self.record()?;
        Some(if header == 0 { Value::Null } else { read(self.of, body) })
    }

    /// Passes the elements before without reading them.
    #[inline(always)]
    fn nth(&mut self, n: usize) -> Option<Value<'a>> {
        for _ in 0..n {
            self.record()?;
        }
        self.next()
    }
}
