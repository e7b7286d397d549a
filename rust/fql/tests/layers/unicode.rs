//! UTF-8 in queries and in values beside the standard library's, and every character by its number.

use std::str::from_utf8;

use fql::record::{write, ARRAY};
use fql::types::{CHAR16, REFERENCE, STRING};
use reference::random::{for_each_seed, Random};

use crate::ask::{answer, mark_of, marks, refusal, table};
use crate::quoted::stands_raw;
use crate::seen::Seen;

/// 10 exactly where the standard library finds a fault, at the same place: in the bytes alone and in a string literal.
fn hold_in_queries(bytes: &[u8], table: &[u8], seen: &mut Seen) {
    for query in [bytes.to_vec(), [b"A = 'x", bytes, b"y'"].concat()] {
        let found = refusal(&query, table);
        match from_utf8(&query) {
            Err(e) => assert_eq!(found, Some((10, e.valid_up_to() as u64)), "{}", query.escape_ascii()),
            Ok(_) => assert!(found.is_none_or(|(number, _)| number != 10), "{}", query.escape_ascii()),
        }
        if query.len() > bytes.len() && from_utf8(bytes).is_ok_and(|text| text.chars().all(stands_raw)) {
            assert_eq!(found, None, "{}", query.escape_ascii());
        }
    }
    seen.add(if from_utf8(bytes).is_ok() { "well-formed" } else { "ill-formed" });
}

/// A body of a string or a reference conforms exactly where the standard library finds no fault.
fn hold_in_values(bodies: &[Vec<u8>]) {
    for kind in [STRING, REFERENCE] {
        let instances: Vec<Vec<u8>> = bodies.iter().map(|body| write(kind, body)).collect();
        for (mark, body) in marks("A = NULL", &table(&[kind]), &instances).into_iter().zip(bodies) {
            let expected = if from_utf8(body).is_ok() { fql::EXCLUDED } else { fql::FAILED };
            assert_eq!(mark, expected, "type {kind}: {}", body.escape_ascii());
        }
    }
}

fn hold(bodies: &[Vec<u8>], least: &[(&'static str, usize)]) {
    let (table, mut seen) = (table(&[STRING]), Seen::default());
    bodies.iter().for_each(|body| hold_in_queries(body, &table, &mut seen));
    hold_in_values(bodies);
    seen.assert_at_least(least);
}

#[test]
fn every_sequence_of_up_to_two_bytes() {
    let mut bodies: Vec<Vec<u8>> = (0..=255).map(|byte| vec![byte]).collect();
    for first in 0..=255 {
        bodies.extend((0..=255).map(|second| vec![b'x', first, second, b'y']));
    }
    hold(&bodies, &[("well-formed", 18_000), ("ill-formed", 40_000)]);
}

#[test]
fn long_sequences_around_each_border() {
    let borders = [0x00, 0x7f, 0x80, 0x8f, 0x90, 0x9f, 0xa0, 0xbf, 0xc0, 0xff];
    let mut bodies = Vec::new();
    for first in 0xdf..=0xf8 {
        for rest in 0..1_000 {
            let bytes = [first, borders[rest / 100], borders[rest / 10 % 10], borders[rest % 10], b'z'];
            bodies.extend((1..=bytes.len()).map(|n| bytes[..n].to_vec()));
        }
    }
    hold(&bodies, &[("well-formed", 4_000), ("ill-formed", 100_000)]);
}

fn random_texts(r: &mut Random) {
    let mut bodies = Vec::new();
    for _ in 0..60_000 {
        let length = r.below(12);
        let text: String = (0..length)
            .filter_map(|_| char::from_u32(r.word() as u32 % r.pick(&[0x80, 0x900, 0x1_1000, 0x11_0000])))
            .collect();
        bodies.push(r.damage(text.as_bytes()));
        bodies.push(text.into_bytes());
    }
    hold(&bodies, &[("well-formed", 60_000), ("ill-formed", 20_000)]);
}

#[test]
fn random_and_damaged_texts() {
    for_each_seed(random_texts);
}

/// The same text with one character exchanged for another.
fn with_another(r: &mut Random, text: &[char]) -> String {
    let mut changed = text.to_vec();
    let at = r.below(text.len());
    let flipped = |bit: usize| char::from_u32(u32::from(text[at]) ^ (1 << bit));
    changed[at] = (0..21).cycle().skip(r.below(21)).find_map(flipped).unwrap();
    changed.into_iter().collect()
}

/// A string of all of these characters equals the literal that has each by its number, and the one that has each as it
/// is; a string with another character in one place doesn't. Each character is one step of a match.
fn hold_characters(r: &mut Random, text: &[char]) {
    let table = table(&[STRING]);
    let escapes: String = text.iter().map(|&c| format!("\\u{:06X}", u32::from(c))).collect();
    let instances = [text.iter().collect(), with_another(r, text)].map(|text: String| write(STRING, text.as_bytes()));
    assert_eq!(marks(&format!("A = '{escapes}'"), &table, &instances), [mark_of(true), mark_of(false)], "{escapes}");
    assert_eq!(answer("A LIKE '.*'", &table, &instances[0]), (true, 1 + text.len() as u64), "{escapes}");
    let raw: String = text.iter().filter(|c| stands_raw(**c)).collect();
    assert_eq!(answer(&format!("A = '{raw}'"), &table, &write(STRING, raw.as_bytes())), (true, 1), "{escapes}");
}

#[test]
fn every_scalar_value() {
    let every: Vec<char> = ('\0'..=char::MAX).collect();
    assert_eq!(every.len(), 0x11_0000 - 0x800);
    for_each_seed(|r| every.chunks(480).for_each(|text| hold_characters(r, text)));
}

/// Which units conform, and the character that each is.
#[test]
fn every_char16() {
    let instances: Vec<Vec<u8>> = (0..=u16::MAX).map(|unit| write(CHAR16, &unit.to_le_bytes())).collect();
    for (mark, unit) in marks("A = NULL", &table(&[CHAR16]), &instances).into_iter().zip(0..) {
        let expected = if char::from_u32(unit).is_some() { fql::EXCLUDED } else { fql::FAILED };
        assert_eq!(mark, expected, "{unit:x}");
    }
    let units: Vec<u16> = (0..=u16::MAX).filter(|&unit| char::from_u32(u32::from(unit)).is_some()).collect();
    for units in units.chunks(32) {
        let literals: Vec<String> = units.iter().map(|unit| format!("'\\u{unit:04x}'")).collect();
        let query = format!("A = {{{}}}", literals.join(", "));
        let body: Vec<u8> = units.iter().flat_map(|unit| write(CHAR16, &unit.to_le_bytes())).collect();
        let found = answer(&query, &table(&[ARRAY | CHAR16]), &write(ARRAY | CHAR16, &body));
        assert_eq!(found, (true, 1 + units.len() as u64), "{query}");
    }
}
