//! What the walk notes of a property's record, in one word.

use crate::text::Coding;

/// The header's length and kind, where the record starts, and what is known of the body.
#[derive(Clone, Copy)]
pub struct Note(u64);

/// What is known of a body beyond its header: an array's elements, or that a text is ASCII.
pub type Extra = u16;

pub const ASCII: Extra = 1;

impl Note {
    pub const NULL: Note = Note(0);

    #[inline(always)]
    pub fn new(header: u32, start: usize, extra: Extra) -> Note {
        Note(u64::from(header) | (start as u64) << 32 | u64::from(extra) << 48)
    }

    #[inline(always)]
    pub fn is_null(self) -> bool {
        self.0 as u32 >> 16 == 0
    }

    #[inline(always)]
    pub fn body(self, instance: &[u8]) -> &[u8] {
        let start = usize::from((self.0 >> 32) as u16) + 4;
        &instance[start..start + usize::from(self.0 as u16)]
    }

    #[inline(always)]
    pub fn elements(self) -> usize {
        usize::from(self.extra())
    }

    #[inline(always)]
    pub fn coding(self) -> Coding {
        if self.extra() == ASCII {
            Coding::Ascii
        } else {
            Coding::Utf8
        }
    }

    #[inline(always)]
    fn extra(self) -> Extra {
        (self.0 >> 48) as u16
    }
}
