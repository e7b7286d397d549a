//! Integers of every width and sign: which bodies conform, and that numbers compare as whole numbers with literals and
//! with one another, whatever their types.

use std::collections::BTreeSet;

use fql::record::{write, ARRAY, NULL};
use fql::types::{BOOLEAN, SINT16, SINT32, SINT64, SINT8, UINT16, UINT32, UINT64, UINT8};

use crate::ask::{answer, hold_to_orders, mark_of, marks, refusal, table};

/// A type, its bytes, its lowest and its highest number.
pub type Integer = (u16, usize, i128, i128);

pub const INTEGERS: [Integer; 8] = [
    (UINT8, 1, 0, 255),
    (UINT16, 2, 0, 65_535),
    (UINT32, 4, 0, 4_294_967_295),
    (UINT64, 8, 0, 18_446_744_073_709_551_615),
    (SINT8, 1, -128, 127),
    (SINT16, 2, -32_768, 32_767),
    (SINT32, 4, -2_147_483_648, 2_147_483_647),
    (SINT64, 8, -9_223_372_036_854_775_808, 9_223_372_036_854_775_807),
];

/// How many bytes an integer type has, none for another type.
pub fn bytes_of(kind: u16) -> Option<usize> {
    INTEGERS.iter().find(|integer| integer.0 == kind).map(|integer| integer.1)
}

/// A number's record: as many of its lowest bytes as the type has.
fn record((kind, bytes, ..): Integer, n: i128) -> Vec<u8> {
    write(kind, &n.to_le_bytes()[..bytes])
}

/// 0, 1 and −1, and around the lowest and the highest number of every type.
fn borders() -> BTreeSet<i128> {
    let around = |n: i128| [n - 1, n, n + 1];
    INTEGERS.iter().flat_map(|&(_, _, lowest, highest)| [lowest, highest, 0]).flat_map(around).collect()
}

fn borders_of((_, _, lowest, highest): Integer) -> Vec<i128> {
    borders().into_iter().filter(|n| (lowest..=highest).contains(n)).collect()
}

#[test]
fn every_two_types() {
    let mut pairs = 0;
    for (a, b) in INTEGERS.into_iter().flat_map(|a| INTEGERS.map(|b| (a, b))) {
        let numbers: Vec<[i128; 2]> =
            borders_of(a).into_iter().flat_map(|m| borders_of(b).into_iter().map(move |n| [m, n])).collect();
        let instances: Vec<Vec<u8>> = numbers.iter().map(|&[m, n]| [record(a, m), record(b, n)].concat()).collect();
        let table = table(&[a.0, b.0]);
        hold_to_orders("A", "B", &table, &instances, |at| Some(numbers[at][0].cmp(&numbers[at][1])));
        pairs += numbers.len();
    }
    assert_eq!(borders().len(), 39);
    assert!(pairs > 15_000, "only {pairs} pairs");
}

/// Literals keep their range whatever the width: one that no value of the type equals is compared all the same.
#[test]
fn every_type_beside_literals() {
    const MOST: i128 = u64::MAX as i128;
    let mut literals = borders();
    literals.extend([300, -300, 44, 65_580, 1 - MOST, -MOST, MOST]);
    for integer in INTEGERS {
        let numbers = borders_of(integer);
        let instances: Vec<Vec<u8>> = numbers.iter().map(|&n| record(integer, n)).collect();
        let table = table(&[integer.0]);
        for &literal in literals.iter().filter(|n| n.abs() <= MOST) {
            hold_to_orders("A", &literal.to_string(), &table, &instances, |at| Some(numbers[at].cmp(&literal)));
        }
        for beyond in [MOST + 1, -MOST - 1] {
            assert_eq!(refusal(format!("A = {beyond}").as_bytes(), &table), Some((23, 4)));
        }
    }
}

#[test]
fn literals_beyond_one_byte() {
    for (kind, body) in [(UINT8, 0x2c), (UINT8, 0xff), (UINT8, 0), (SINT8, 0x2c), (SINT8, 0xff), (SINT8, 0x80)] {
        let (table, instance) = (table(&[kind]), write(kind, &[body]));
        for (query, included) in [
            ("A = 300", false),
            ("A = 256", false),
            ("A = -256", false),
            ("A <> 300", true),
            ("A < 300", true),
            ("A <= 256", true),
            ("A > 256", false),
            ("A >= -256", true),
        ] {
            assert_eq!(answer(query, &table, &instance), (included, 1), "{query} on {body} of {kind:#06x}");
        }
    }
}

/// The same bytes with a sign and without: 0xFF is −1 and 255.
#[test]
fn all_bits_set() {
    for (kind, bytes, lowest, highest) in INTEGERS {
        let (table, instance) = (table(&[kind]), write(kind, &vec![0xff; bytes]));
        let signed = lowest < 0;
        assert_eq!(answer("A = -1", &table, &instance), (signed, 1), "{kind:#06x}");
        assert_eq!(answer(&format!("A = {highest}"), &table, &instance), (!signed, 1), "{kind:#06x}");
    }
}

/// Each body of one and of two bytes is its own number in 8 bytes, and not the next one.
#[test]
fn every_number_of_two_bytes() {
    for narrow in INTEGERS.into_iter().filter(|integer| integer.1 <= 2) {
        let wide = INTEGERS[7];
        let numbers: Vec<i128> = (narrow.2..=narrow.3).collect();
        let beside = |by: i128| -> Vec<Vec<u8>> {
            numbers.iter().map(|&n| [record(narrow, n), record(wide, n + by)].concat()).collect()
        };
        let table = table(&[narrow.0, wide.0]);
        assert_eq!(numbers.len(), 256usize.pow(narrow.1 as u32));
        assert!(marks("A = B", &table, &beside(0)).into_iter().all(|mark| mark == mark_of(true)));
        assert!(marks("A < B AND B > A", &table, &beside(1)).into_iter().all(|mark| mark == mark_of(true)));
    }
}

/// The place of 31 in an instance whose first record, a boolean, ends at 5.
fn failure(kind: u16, record: &[u8]) -> Option<(u64, u64)> {
    let instance = [write(BOOLEAN, &[1]), record.to_vec()].concat();
    let found = fql::evaluate(b"A = TRUE", &table(&[BOOLEAN, kind]), &instance);
    found.err().map(|refusal| (refusal.cause.number(), refusal.place))
}

/// A body of another length is 31 at its record, and inside an array at the array's.
fn hold_to_length((kind, bytes, ..): Integer, length: usize, byte: u8) {
    let expected = (length != bytes).then_some((31, 5));
    let (good, value) = (write(kind, &vec![byte; bytes]), write(kind, &vec![byte; length]));
    assert_eq!(failure(kind, &value), expected, "{kind:#06x}, {length} bytes");
    for elements in [vec![value.clone()], vec![good, write(NULL, &[]), value]] {
        let array = write(ARRAY | kind, &elements.concat());
        assert_eq!(failure(ARRAY | kind, &array), expected, "{kind:#06x}, {length} bytes in an array");
    }
}

#[test]
fn every_length() {
    for (integer, length) in INTEGERS.into_iter().flat_map(|integer| (0..=20).map(move |length| (integer, length))) {
        [0, 1, 0x80, 0xff].into_iter().for_each(|byte| hold_to_length(integer, length, byte));
    }
}

/// A record has its property's own type, and an element its array's: another type of as many bytes won't do.
#[test]
fn every_type_in_the_place_of_another() {
    for (kind, ..) in INTEGERS {
        for (other, bytes, ..) in INTEGERS {
            let expected = (kind != other).then_some((31, 5));
            let value = write(other, &vec![0; bytes]);
            assert_eq!(failure(kind, &value), expected, "{other:#06x} for {kind:#06x}");
            assert_eq!(failure(ARRAY | kind, &write(ARRAY | kind, &value)), expected, "{other:#06x} in {kind:#06x}");
            assert_eq!(failure(kind, &write(ARRAY | other, &value)), Some((31, 5)));
            assert_eq!(failure(ARRAY | kind, &value), Some((31, 5)));
        }
    }
}

/// Arrays of any two types with the same numbers are equal, in one step for each pair; with a NULL in one they aren't.
#[test]
fn arrays_of_every_two_types() {
    for (a, b) in INTEGERS.into_iter().flat_map(|a| INTEGERS.map(|b| (a, b))) {
        // An array literal has at most 32 elements.
        let shared: Vec<i128> = borders_of(a).into_iter().filter(|n| borders_of(b).contains(n)).take(32).collect();
        let records = |integer: Integer| -> Vec<Vec<u8>> { shared.iter().map(|&n| record(integer, n)).collect() };
        let array = |integer: Integer, records: &[Vec<u8>]| write(ARRAY | integer.0, &records.concat());
        let (table, size) = (table(&[ARRAY | a.0, ARRAY | b.0]), shared.len() as u64);
        let same = [array(a, &records(a)), array(b, &records(b))].concat();
        assert_eq!(answer("A = B", &table, &same), (true, 1 + size), "{a:?} {b:?}");
        assert_eq!(answer(&format!("ANY A = B[{}]", size - 1), &table, &same), (true, 1 + size), "{a:?} {b:?}");
        let literal: Vec<String> = shared.iter().map(i128::to_string).collect();
        assert_eq!(answer(&format!("B = {{{}}}", literal.join(",")), &table, &same), (true, 1 + size), "{a:?} {b:?}");
        let mut others = records(b);
        *others.last_mut().unwrap() = write(NULL, &[]);
        let unequal = [array(a, &records(a)), array(b, &others)].concat();
        assert_eq!(answer("A = B", &table, &unequal), (false, 1 + size), "{a:?} {b:?}");
        assert_eq!(answer("EVERY B < A[0]", &table, &unequal), (false, 2), "{a:?} {b:?}");
    }
}
