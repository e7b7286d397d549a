//! Whether bytes are UTF-8, and whether they are ASCII, by blocks.

use crate::bytes::{short_word, word};

#[derive(Clone, Copy, Debug, PartialEq, Eq)]
pub enum Coding {
    Ascii,
    /// UTF-8 with characters of several bytes.
    Utf8,
}

const HIGH: u64 = 0x8080_8080_8080_8080;

/// None where the bytes are not UTF-8.
#[inline(always)]
pub fn coding(s: &[u8]) -> Option<Coding> {
    if is_ascii(s) {
        return Some(Coding::Ascii);
    }
    beyond_ascii(s)
}

#[cold]
#[inline(never)]
fn beyond_ascii(s: &[u8]) -> Option<Coding> {
    std::str::from_utf8(s).ok().map(|_| Coding::Utf8)
}

#[inline(always)]
pub fn is_ascii(s: &[u8]) -> bool {
    match s.len() {
        0..8 => short_word(s) & HIGH == 0,
        n @ 8..16 => (word(s, 0) | word(s, n - 8)) & HIGH == 0,
        n @ 16..=32 => !is_high(&joined(block(s, 0), block(s, n - 16))),
        n @ 33..=64 => {
            let [first, last] = [joined(block(s, 0), block(s, 16)), joined(block(s, n - 32), block(s, n - 16))];
            !is_high(&joined(first, last))
        }
        _ => is_long_ascii(s),
    }
}

/// The last block overlaps the one before it, which saves a loop over the rest.
#[inline(never)]
fn is_long_ascii(s: &[u8]) -> bool {
    let mut all: [u8; 64] = s[s.len() - 64..].try_into().unwrap();
    for block in s.chunks_exact(64) {
        for (all, byte) in all.iter_mut().zip(block) {
            *all |= byte;
        }
    }
    !all.chunks_exact(16).any(|block| is_high(block.try_into().unwrap()))
}

#[inline(always)]
fn block(s: &[u8], at: usize) -> [u8; 16] {
    s[at..at + 16].try_into().unwrap()
}

#[inline(always)]
fn joined(a: [u8; 16], b: [u8; 16]) -> [u8; 16] {
    std::array::from_fn(|n| a[n] | b[n])
}

#[inline(always)]
fn is_high(block: &[u8; 16]) -> bool {
    block.iter().fold(0, |all, byte| all | byte) >= 0x80
}

/// The characters of a text that is UTF-8. A sum of so few bytes fits in a byte, of which many are added at once.
#[inline]
pub fn count(s: &[u8]) -> u64 {
    let in_block = |block: &[u8]| block.iter().map(|&byte| u8::from(byte as i8 >= -0x40)).sum::<u8>();
    s.chunks(192).map(|block| u64::from(in_block(block))).sum()
}

/// The first character of a text that is UTF-8 and not empty, and the rest.
#[inline(always)]
pub fn first(s: &[u8]) -> (u32, &[u8]) {
    let low = |byte: u8| u32::from(byte & 0x3f);
    match *s {
        [a, ref rest @ ..] if a < 0x80 => (u32::from(a), rest),
        [a, b, ref rest @ ..] if a < 0xe0 => (u32::from(a & 0x1f) << 6 | low(b), rest),
        [a, b, c, ref rest @ ..] if a < 0xf0 => (u32::from(a & 0xf) << 12 | low(b) << 6 | low(c), rest),
        [a, b, c, d, ref rest @ ..] => (u32::from(a & 7) << 18 | low(b) << 12 | low(c) << 6 | low(d), rest),
        _ => panic!("the text is empty, or no UTF-8"),
    }
}

#[cfg(test)]
mod tests {
    use super::*;

    /// A byte above 127 at each place of texts around the lengths of the blocks.
    #[test]
    fn each_byte_counts() {
        for length in 0..200 {
            assert!(is_ascii(&vec![0x7f; length]), "{length}");
            for at in 0..length {
                let mut text = vec![b'x'; length];
                text[at] = 0x80;
                assert!(!is_ascii(&text), "{at} of {length}");
            }
        }
    }
}
