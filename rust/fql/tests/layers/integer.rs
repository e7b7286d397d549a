//! Integers in values and in literals, compared as whole numbers: beside the language's own, in 128 bits.

use fql::record::write;
use fql::types::{SINT64, UINT64};
use reference::random::{for_each_seed, Random};

use crate::ask::{hold_to_orders, mark_of, marks, refusal, table};
use crate::seen::Seen;

const MOST: i128 = u64::MAX as i128;

/// Eight bytes: at a border, of a pattern that another order of bytes changes, or any.
fn word(r: &mut Random) -> u64 {
    let bit = r.below(64);
    match r.below(8) {
        0 => 1 << bit,
        1 => u64::MAX << bit,
        2 => (1 << bit) - 1,
        3 => r.pick(&[0, 1, 5, u64::MAX, 1 << 63, i64::MAX as u64, 0x0102_0304_0506_0708, 0xff]),
        4 => r.word() >> bit,
        _ => r.word(),
    }
}

/// Eight bytes near others.
fn near(r: &mut Random, n: u64) -> u64 {
    match r.below(8) {
        0 => n,
        1 => n.wrapping_add(1),
        2 => n.wrapping_sub(1),
        3 => n.swap_bytes(),
        4 => n ^ (1 << r.below(64)),
        5 => n.wrapping_neg(),
        _ => word(r),
    }
}

/// The whole number in the eight bytes of a value.
fn value(kind: u16, word: u64) -> i128 {
    match kind {
        SINT64 => i128::from(word as i64),
        _ => i128::from(word),
    }
}

fn values(r: &mut Random) {
    const KINDS: [u16; 4] = [UINT64, UINT64, SINT64, SINT64];
    let table = table(&KINDS);
    let mut seen = Seen::default();
    for _ in 0..50 {
        let mut held = Vec::new();
        for _ in 0..1_000 {
            let first = word(r);
            let rest = [near(r, first), near(r, first), near(r, first)];
            held.push([first, rest[0], rest[1], rest[2]]);
        }
        let instances: Vec<Vec<u8>> =
            held.iter().map(|words| (0..4).flat_map(|n| write(KINDS[n], &words[n].to_le_bytes())).collect()).collect();
        for (a, b, sides) in [(0, 1, ["A", "B"]), (0, 2, ["A", "C"]), (2, 0, ["C", "A"]), (2, 3, ["C", "D"])] {
            let order = |n: usize| value(KINDS[a], held[n][a]).cmp(&value(KINDS[b], held[n][b]));
            hold_to_orders(sides[0], sides[1], &table, &instances, |n| Some(order(n)));
            for n in 0..held.len() {
                seen.add(["less", "equal", "greater"][(order(n) as i8 + 1) as usize]);
            }
        }
    }
    seen.assert_at_least(&[("less", 50_000), ("equal", 15_000), ("greater", 50_000)]);
}

#[test]
fn values_beside_values() {
    for_each_seed(values);
}

/// A literal's sign and digits: decimal, binary or hex, with zeros before them.
fn spelled(r: &mut Random, n: i128) -> (String, &'static str) {
    let sign = if n < 0 { "-" } else { r.pick(&["", "", "+"]) };
    let (size, zeros) = (n.unsigned_abs(), "0".repeat(r.below(3) * r.below(20)));
    match r.below(3) {
        0 => (format!("{sign}{zeros}{size}"), "decimal"),
        1 => (format!("{sign}{zeros}{size:b}{}", r.pick(&["b", "B"])), "binary"),
        _ => {
            let digits = if r.chance(2) { format!("{zeros}{size:x}") } else { format!("{zeros}{size:X}") };
            let even = if digits.len() % 2 == 1 { "0" } else { "" };
            (format!("{sign}{}{even}{digits}", r.pick(&["0x", "0X"])), "hex")
        }
    }
}

/// Holds a literal to its value by the values beside it, of both types.
fn hold_literal(r: &mut Random, literal: &str, n: i128) {
    for kind in [UINT64, SINT64] {
        let around = n as u64;
        let mut words: Vec<u64> = [0, 1, u64::MAX, 1 << 63, (1 << 63) - 1].to_vec();
        words.extend([around, around.wrapping_add(1), around.wrapping_sub(1), near(r, around)]);
        let instances: Vec<Vec<u8>> = words.iter().map(|word| write(kind, &word.to_le_bytes())).collect();
        hold_to_orders("A", literal, &table(&[kind]), &instances, |i| Some(value(kind, words[i]).cmp(&n)));
    }
}

fn literals(r: &mut Random) {
    let mut seen = Seen::default();
    for _ in 0..12_000 {
        let size = i128::from(word(r));
        let n = if r.chance(2) { -size } else { size };
        let (literal, base) = spelled(r, n);
        hold_literal(r, &literal, n);
        seen.add(base);
        seen.add(if n < i128::from(i64::MIN) { "below every value" } else { "a value's" });
    }
    let least =
        [("decimal", 3_500), ("binary", 3_500), ("hex", 3_500), ("a value's", 9_000), ("below every value", 800)];
    seen.assert_at_least(&least);
}

#[test]
fn literals_beside_values() {
    for_each_seed(literals);
}

/// Digits of a base, and the number that the standard library reads in them, none above 64 bits.
fn digits(r: &mut Random, radix: u32, most: usize) -> (String, Option<i128>) {
    let zeros = "0".repeat(r.below(3) * r.below(20));
    let count = 1 + r.below(most);
    let digits: String = (0..count).filter_map(|_| char::from_digit(r.below(radix as usize) as u32, radix)).collect();
    let digits = if radix == 16 && (zeros.len() + count) % 2 == 1 { digits + "f" } else { digits };
    let size = match digits.trim_start_matches('0') {
        "" => Some(0),
        significant => u64::from_str_radix(significant, radix).ok().map(i128::from),
    };
    (zeros + &digits, size)
}

fn digits_of_any_length(r: &mut Random) {
    let mut seen = Seen::default();
    for _ in 0..100_000 {
        let (radix, most) = r.pick(&[(10, 23), (2, 70), (16, 20)]);
        let (digits, size) = digits(r, radix, most);
        let (before, after) = match radix {
            10 => ("", ""),
            2 => ("", "B"),
            _ => ("0x", ""),
        };
        let sign = r.pick(&["", "+", "-"]);
        let literal = format!("{sign}{before}{digits}{after}");
        match size {
            None => {
                let found = refusal(format!("A = {literal}").as_bytes(), &table(&[UINT64]));
                assert_eq!(found, Some((23, 4)), "{literal}");
                seen.add("beyond");
            }
            Some(size) => {
                hold_to_its_value(&literal, if sign == "-" { -size } else { size });
                seen.add("within");
            }
        }
    }
    seen.assert_at_least(&[("within", 60_000), ("beyond", 5_000)]);
}

/// Equality with the one value that a type may have of this number.
fn hold_to_its_value(literal: &str, n: i128) {
    let kind = if n < 0 { SINT64 } else { UINT64 };
    let words = [n as u64, (n as u64).wrapping_add(1), (n as u64).wrapping_sub(1)];
    let instances = words.map(|word| write(kind, &word.to_le_bytes()));
    let found = marks(&format!("A = {literal}"), &table(&[kind]), &instances);
    for (mark, word) in found.into_iter().zip(words) {
        assert_eq!(mark, mark_of(value(kind, word) == n), "{word} = {literal}");
    }
}

#[test]
fn literals_of_any_length() {
    for_each_seed(digits_of_any_length);
}

/// −(2^64−1) to 2^64−1, in each base and with zeros before the digits.
#[test]
fn the_limits_of_literals() {
    for_each_seed(|r| {
        for n in (MOST - 5..=MOST + 5).flat_map(|n| [n; 20]) {
            for n in [n, -n] {
                let query = format!("A >= {}", spelled(r, n).0);
                let expected = (n.abs() > MOST).then_some((23, 5));
                assert_eq!(refusal(query.as_bytes(), &table(&[SINT64])), expected, "{query}");
            }
        }
    });
}
