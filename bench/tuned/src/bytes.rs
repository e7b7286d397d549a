//! Little-endian numbers in bytes. Each becomes one load, and its bound is known at most places.

#[inline(always)]
pub fn word(s: &[u8], at: usize) -> u64 {
    u64::from_le_bytes(s[at..at + 8].try_into().unwrap())
}

#[inline(always)]
pub fn half(s: &[u8], at: usize) -> u32 {
    u32::from_le_bytes(s[at..at + 4].try_into().unwrap())
}

/// Up to eight bytes, with zeros behind them.
#[inline(always)]
pub fn short_word(s: &[u8]) -> u64 {
    match s.len() {
        0 => 0,
        n @ 1..=3 => {
            // The first, the middle and the last: some of them twice.
            let byte = |at: usize| u64::from(s[at]) << (8 * at);
            byte(0) | byte(n / 2) | byte(n - 1)
        }
        n @ 4..=7 => u64::from(half(s, 0)) | u64::from(half(s, n - 4)) << (8 * (n - 4)),
        _ => word(s, 0),
    }
}

/// An unsigned body of 1, 2, 4 or 8 bytes.
#[inline(always)]
pub fn unsigned(body: &[u8]) -> u64 {
    match *body {
        [a] => u64::from(a),
        [a, b] => u64::from(u16::from_le_bytes([a, b])),
        [a, b, c, d] => u64::from(u32::from_le_bytes([a, b, c, d])),
        _ => word(body, 0),
    }
}

/// A signed body of 1, 2, 4 or 8 bytes.
#[inline(always)]
pub fn signed(body: &[u8]) -> i64 {
    match *body {
        [a] => i64::from(a as i8),
        [a, b] => i64::from(i16::from_le_bytes([a, b])),
        [a, b, c, d] => i64::from(i32::from_le_bytes([a, b, c, d])),
        _ => word(body, 0) as i64,
    }
}
