//! Names and reserved words, eight bytes at a time.

use crate::bytes::{short_word, word};
use crate::token::Kind;

/// Of letters, digits and `_`, this bit is the case and nothing else.
const CASE: u64 = 0x2020_2020_2020_2020;
const LONGEST: usize = 64;

#[inline]
pub fn is_part(byte: u8) -> bool {
    byte.is_ascii_alphanumeric() || byte == b'_'
}

#[inline]
pub fn is_first(byte: u8) -> bool {
    byte.is_ascii_alphabetic() || byte == b'_'
}

pub fn is_name(s: &[u8]) -> bool {
    // Without an early exit, which would cost more than it saves.
    let all = s.iter().fold(true, |all, &byte| all & is_part(byte));
    all && s.len() <= LONGEST && s.first().is_some_and(|&byte| is_first(byte))
}

const fn spelled(s: &[u8]) -> u64 {
    let (mut folded, mut at) = (0, 0);
    while at < s.len() {
        folded |= (s[at] as u64) << (8 * at);
        at += 1;
    }
    folded
}

const AND: u64 = spelled(b"and");
const ANY: u64 = spelled(b"any");
const EVERY: u64 = spelled(b"every");
const FALSE: u64 = spelled(b"false");
const LIKE: u64 = spelled(b"like");
const NOT: u64 = spelled(b"not");
const NULL: u64 = spelled(b"null");
const OR: u64 = spelled(b"or");
const TRUE: u64 = spelled(b"true");

/// The reserved word that a name is, in any case.
#[inline]
pub fn reserved(name: &[u8]) -> Option<Kind> {
    if !(2..=5).contains(&name.len()) {
        return None;
    }
    Some(match folded_tail(name) {
        AND => Kind::And,
        ANY => Kind::Any,
        EVERY => Kind::Every,
        FALSE => Kind::False,
        LIKE => Kind::Like,
        NOT => Kind::Not,
        NULL => Kind::Null,
        OR => Kind::Or,
        TRUE => Kind::True,
        _ => return None,
    })
}

/// One to eight bytes without their case, and nothing behind them.
#[inline]
fn folded_tail(s: &[u8]) -> u64 {
    (short_word(s) | CASE) & (u64::MAX >> (64 - 8 * s.len()))
}

/// A name's words of eight bytes without their case; its last is the tail.
#[inline]
fn folded(name: &[u8]) -> impl Iterator<Item = u64> + '_ {
    let tail = name.len() - (name.len() - 1) % 8 - 1;
    let whole = (0..tail / 8).map(|n| word(name, 8 * n) | CASE);
    whole.chain(std::iter::once(folded_tail(&name[tail..])))
}

#[inline]
pub fn hash(name: &[u8]) -> u64 {
    folded(name).fold(name.len() as u64, |h, word| {
        let product = (h ^ word).wrapping_mul(0x9e37_79b9_7f4a_7c15);
        product ^ (product >> 32)
    })
}

/// Whether two names differ in nothing but case.
#[inline]
pub fn same(a: &[u8], b: &[u8]) -> bool {
    a.len() == b.len() && folded(a).eq(folded(b))
}
