//! Real literals beside the standard library's parser, which rounds correctly; reals in bytes beside its comparison.

use fql::record::write;
use fql::types::{REAL32, REAL64};
use reference::random::{for_each_seed, Random};

use crate::ask::{hold_to_orders, mark_of, marks, refusal, table};
use crate::seen::Seen;

/// Whether the digits without the point make a number below 10^15, and the exponent less the digits after the point is
/// from −22 to 22.
fn is_in_range(literal: &str) -> bool {
    let (mantissa, exponent) = literal.split_once(['e', 'E']).unwrap_or((literal, "0"));
    let (whole, fraction) = mantissa.trim_start_matches(['+', '-']).split_once('.').unwrap();
    let digits = format!("{whole}{fraction}");
    let significant = digits.trim_start_matches('0').len();
    let exponent = exponent.parse::<i128>().unwrap() - fraction.len() as i128;
    significant <= 15 && (-22..=22).contains(&exponent)
}

/// A literal out of range is 23; one in range equals the real64 that the parser reads in it and none of its neighbours.
fn hold(literal: &str, seen: &mut Seen) {
    let (table, query) = (table(&[REAL64]), format!("A = {literal}"));
    if !is_in_range(literal) {
        assert_eq!(refusal(query.as_bytes(), &table), Some((23, 4)), "{literal}");
        return seen.add("beyond");
    }
    let parsed: f64 = literal.parse().unwrap();
    let bits = parsed.to_bits();
    let around = [parsed, f64::from_bits(bits.wrapping_add(1)), f64::from_bits(bits.wrapping_sub(1)), -parsed];
    let instances = around.map(|value| write(REAL64, &value.to_le_bytes()));
    let equal = around.map(|value| mark_of(value == parsed));
    let less = around.map(|value| mark_of(value < parsed));
    assert_eq!(marks(&query, &table, &instances), equal, "{literal}");
    assert_eq!(marks(&format!("A < {literal}"), &table, &instances), less, "{literal}");
    seen.add("within");
}

#[test]
fn literals_around_the_limits() {
    let mut seen = Seen::default();
    let sizes = [0, 1, 2, 21, 22, 23, 44, 45, 400];
    let exponents = sizes.into_iter().chain([i128::from(u64::MAX), i128::from(u64::MAX) << 40]);
    for (exponent, after) in exponents.flat_map(|exponent| sizes.map(|after| (exponent, after as usize))) {
        for digits in ["0", "1", "5", "15", "999999999999999", "1000000000000000", "18446744073709551615"] {
            let padded = format!("{}{digits}", "0".repeat(after));
            let (whole, fraction) = padded.split_at(padded.len() - after);
            for (sign, below) in [("", ""), ("", "-"), ("-", "+"), ("-", "-")] {
                hold(&format!("{sign}{whole}.{fraction}E{below}{exponent}"), &mut seen);
            }
        }
    }
    seen.assert_at_least(&[("within", 500), ("beyond", 2_000)]);
}

/// D × 10^e with the point anywhere among the digits; D and e are near their limits or anything.
fn literal(r: &mut Random) -> String {
    let d = match r.below(8) {
        0 => r.pick(&[0, 1, 999_999_999_999_999, 1_000_000_000_000_000, 1_000_000_000_000_001]),
        _ => r.word() % 10u64.pow(1 + r.below(17) as u32),
    };
    let padded = format!("{}{d}", "0".repeat(r.below(4) * r.below(8)));
    let after = r.below(padded.len() + 1);
    let (whole, fraction) = padded.split_at(padded.len() - after);
    let exponent = r.below(49) as i64 - 24 + after as i64;
    let sign = r.pick(&["", "", "+", "-"]);
    if r.chance(3) {
        return format!("{sign}{whole}.{fraction}");
    }
    let plus = if exponent >= 0 { r.pick(&["", "+", "0", "+00"]) } else { "" };
    format!("{sign}{whole}.{fraction}{}{plus}{exponent}", r.pick(&["e", "E"]))
}

fn literals(r: &mut Random) {
    let mut seen = Seen::default();
    for _ in 0..200_000 {
        hold(&literal(r), &mut seen);
    }
    seen.assert_at_least(&[("within", 120_000), ("beyond", 20_000)]);
}

#[test]
fn random_literals() {
    for_each_seed(literals);
}

const SPECIAL: [u64; 12] = [
    0,
    1,
    0x000f_ffff_ffff_ffff,
    0x0010_0000_0000_0000,
    0x7fef_ffff_ffff_ffff,
    0x7ff0_0000_0000_0000,
    0x7ff0_0000_0000_0001,
    0x7ff8_0000_0000_0000,
    0x7fff_ffff_ffff_ffff,
    0x3ff0_0000_0000_0000,
    0x4330_0000_0000_0001,
    0x3fb9_9999_9999_999a,
];

const SPECIAL32: [u32; 10] =
    [0, 1, 0x007f_ffff, 0x0080_0000, 0x7f7f_ffff, 0x7f80_0000, 0x7f80_0001, 0x7fc0_0000, 0x7fff_ffff, 0x3dcc_cccd];

fn real32(r: &mut Random) -> f32 {
    let bits = if r.chance(3) { r.pick(&SPECIAL32) } else { r.word() as u32 };
    f32::from_bits(bits ^ (u32::from(r.chance(2)) << 31))
}

fn real64(r: &mut Random) -> f64 {
    let bits = if r.chance(3) { r.pick(&SPECIAL) } else { r.word() };
    f64::from_bits(bits ^ (u64::from(r.chance(2)) << 63))
}

/// Bits near those of another value, which are near it in order too.
fn near(r: &mut Random, value: f64) -> f64 {
    let bits = value.to_bits();
    match r.below(8) {
        0 => value,
        1 => f64::from_bits(bits.wrapping_add(1)),
        2 => f64::from_bits(bits.wrapping_sub(1)),
        3 => f64::from_bits(bits.swap_bytes()),
        4 => -value,
        _ => real64(r),
    }
}

fn near32(r: &mut Random, value: f32) -> f32 {
    match r.below(6) {
        0 => value,
        1 => f32::from_bits(value.to_bits().wrapping_add(1)),
        2 => -value,
        3 => f32::from_bits(value.to_bits().swap_bytes()),
        _ => real32(r),
    }
}

struct Held {
    narrow: [f32; 2],
    wide: [f64; 2],
}

impl Held {
    /// The real64 are near the first real32, or near each other.
    fn random(r: &mut Random) -> Held {
        let first = real32(r);
        let second = near32(r, first);
        let third = if r.chance(2) { near(r, f64::from(first)) } else { real64(r) };
        Held { narrow: [first, second], wide: [third, near(r, third)] }
    }

    fn instance(&self) -> Vec<u8> {
        let narrow = self.narrow.map(|value| write(REAL32, &value.to_le_bytes())).concat();
        let wide = self.wide.map(|value| write(REAL64, &value.to_le_bytes())).concat();
        [narrow, wide].concat()
    }

    fn values(&self) -> [f64; 4] {
        let [a, b] = self.narrow.map(f64::from);
        [a, b, self.wide[0], self.wide[1]]
    }
}

fn sort_of(a: f64, b: f64) -> &'static str {
    match a.partial_cmp(&b) {
        None => "no order",
        Some(_) if a == 0.0 && b == 0.0 && a.is_sign_negative() != b.is_sign_negative() => "zeros of two signs",
        Some(_) if a.is_infinite() || b.is_infinite() => "infinite",
        Some(std::cmp::Ordering::Equal) => "equal",
        Some(_) if a.is_subnormal() || b.is_subnormal() => "subnormal",
        Some(_) => "unequal",
    }
}

fn values(r: &mut Random) {
    let table = table(&[REAL32, REAL32, REAL64, REAL64]);
    let mut seen = Seen::default();
    for _ in 0..50 {
        let held: Vec<Held> = (0..1_000).map(|_| Held::random(r)).collect();
        let instances: Vec<Vec<u8>> = held.iter().map(Held::instance).collect();
        let held: Vec<[f64; 4]> = held.iter().map(Held::values).collect();
        for (a, b, sides) in [(0, 1, ["A", "B"]), (0, 2, ["A", "C"]), (2, 0, ["C", "A"]), (2, 3, ["C", "D"])] {
            hold_to_orders(sides[0], sides[1], &table, &instances, |n| held[n][a].partial_cmp(&held[n][b]));
            held.iter().for_each(|values| seen.add(sort_of(values[a], values[b])));
        }
    }
    seen.assert_at_least(&[
        ("no order", 20_000),
        ("zeros of two signs", 200),
        ("infinite", 3_000),
        ("equal", 10_000),
        ("subnormal", 3_000),
        ("unequal", 80_000),
    ]);
}

/// By IEEE 754, a real32 widened.
#[test]
fn values_beside_values() {
    for_each_seed(values);
}
