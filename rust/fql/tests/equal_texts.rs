//! Texts and octets around the size of the blocks that the engine compares at once: equal, and with another character or
//! byte at each place, beside properties, literals, escapes and in arrays; and texts that are ill-formed at each place.

mod common;

use common::agree;
use reference::kind::{ARRAY, CLASS, OCTETS, REFERENCE, STRING};
use reference::record::write;

const LENGTHS: [usize; 14] = [0, 1, 2, 3, 5, 8, 15, 16, 17, 20, 31, 33, 48, 70];

/// One, two, three and four bytes, and those whose first byte narrows the second (E0, ED, F0) or that no literal holds.
const CHARACTERS: [&[char]; 8] = [
    &['a', 'b', '\'', '\\'],
    &['é', 'à', 'x'],
    &['ก', 'ข', '\u{800}'],
    &['一', '龥'],
    &['\u{d7ff}', '\u{e000}'],
    &['\u{ff21}', '\u{fffd}'],
    &['\u{fffe}', '\u{ffff}', 'é'],
    &['\u{10000}', 'x', '\u{10ffff}', 'é'],
];

fn table() -> Vec<u8> {
    let properties: [(u16, &[u8]); 7] = [
        (CLASS, b"P"),
        (STRING, b"A"),
        (STRING, b"B"),
        (ARRAY | STRING, b"C"),
        (ARRAY | STRING, b"D"),
        (OCTETS, b"O"),
        (OCTETS, b"Q"),
    ];
    let reference = write(REFERENCE, b"R");
    properties.iter().flat_map(|&(kind, name)| write(kind, name)).chain(reference).collect()
}

fn instance(first: &str, second: &str) -> Vec<u8> {
    let array = |text: &str| write(ARRAY | STRING, &[write(STRING, text.as_bytes()), write(STRING, b"")].concat());
    let (one, other) = (first.as_bytes(), second.as_bytes());
    [
        write(STRING, one),
        write(STRING, other),
        array(first),
        array(second),
        write(OCTETS, one),
        write(OCTETS, other),
        write(REFERENCE, one),
    ]
    .concat()
}

/// A character as it may stand in a string literal, by itself or as an escape.
fn quoted(c: char, escaped: bool) -> String {
    match c {
        '\'' | '\\' => format!("\\{c}"),
        _ if escaped => format!("\\u{:06x}", u32::from(c)),
        _ => c.to_string(),
    }
}

fn compare(first: &[char], second: &[char], place: usize) {
    let (table, instance) = (table(), instance(&String::from_iter(first), &String::from_iter(second)));
    let raw: String = second.iter().map(|&c| quoted(c, false)).collect();
    let escaped: String = second.iter().enumerate().map(|(n, &c)| quoted(c, n == place)).collect();
    let literals = [raw, escaped]
        .into_iter()
        .flat_map(|l| [format!("A = '{l}'"), format!("EVERY C <> '{l}'"), format!("R = '{l}'")]);
    for query in ["A = B", "C = D", "ANY C = B", "O = Q"].into_iter().map(str::to_owned).chain(literals) {
        let found = agree(query.as_bytes(), &table, &instance);
        let allowed = found.is_ok() || second.iter().any(|&c| matches!(c, '\u{fffe}' | '\u{ffff}'));
        assert!(allowed, "{query}: {found:?}");
    }
}

#[test]
fn other_at_each_place() {
    for characters in CHARACTERS {
        for length in LENGTHS {
            let text: Vec<char> = (0..length).map(|n| characters[n % characters.len()]).collect();
            compare(&text, &text, 0);
            compare(&text, &[&text[..], &['é']].concat(), length);
            for place in (0..length).step_by(1 + length / 12) {
                let mut other = text.clone();
                other[place] = characters[(place + 1) % characters.len()];
                compare(&text, &other, place);
            }
        }
    }
}

#[test]
fn ill_formed_at_each_place() {
    let table = [write(CLASS, b"P"), write(STRING, b"A")].concat();
    for characters in CHARACTERS {
        let text: String = (0..40).map(|n| characters[n % characters.len()]).collect();
        for place in 0..text.len() {
            for byte in [0x00, 0x80, 0x9f, 0xa0, 0xbf, 0xc1, 0xc3, 0xe0, 0xe4, 0xed, 0xf0, 0xf4, 0xf5] {
                let mut damaged = text.as_bytes().to_vec();
                damaged[place] = byte;
                let found = agree(b"A = ''", &table, &write(STRING, &damaged));
                assert_eq!(found.is_ok(), std::str::from_utf8(&damaged).is_ok());
            }
        }
    }
}
