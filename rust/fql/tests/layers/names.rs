//! Names and reserved words: every byte in a name, every pair of letters in two names, every word in every case.

use fql::record::{write, CLASS, NULL};
use fql::types::BOOLEAN;

use crate::ask::{answer, refusal};

const WORDS: [&str; 9] = ["AND", "ANY", "EVERY", "FALSE", "LIKE", "NOT", "NULL", "OR", "TRUE"];

/// A class with properties of these names.
fn class(name: &[u8], properties: &[&[u8]]) -> Vec<u8> {
    properties.iter().fold(write(CLASS, name), |out, property| [out, write(BOOLEAN, property)].concat())
}

fn is_name(name: &[u8]) -> bool {
    let starts = name.first().is_some_and(|b| b.is_ascii_alphabetic() || *b == b'_');
    starts && name.iter().all(|b| b.is_ascii_alphanumeric() || *b == b'_') && name.len() <= 64
}

/// A name of a class and of a property after one more; 2 is placed at its record. No query is read before the table.
fn hold(name: &[u8]) {
    let expected = |place: u64| (!is_name(name)).then_some((2, place)).or(Some((11, 0)));
    assert_eq!(refusal(b"", &class(name, &[])), expected(0), "{}", name.escape_ascii());
    assert_eq!(refusal(b"", &class(b"C", &[b"one", name])), expected(12), "{}", name.escape_ascii());
}

#[test]
fn every_byte_in_a_name() {
    for byte in 0..=255 {
        for name in [&[byte][..], &[byte, b'x'], &[b'x', byte], &[b'x', byte, b'1'], &[b'_', b'_', byte]] {
            hold(name);
        }
    }
    (0..=70).for_each(|length| hold(&vec![b'x'; length]));
}

/// 3 exactly where two names are the same but for case, at the second.
#[test]
fn every_pair_of_letters_in_two_names() {
    let letters: Vec<u8> = (0..=255).filter(|&byte| is_name(&[b'x', byte])).collect();
    assert_eq!(letters.len(), 63);
    for (a, b) in letters.iter().flat_map(|a| letters.iter().map(move |b| (*a, *b))) {
        let table = class(b"C", &[&[b'x', a], b"between", &[b'X', b]]);
        let expected = if a.eq_ignore_ascii_case(&b) { (3, 22) } else { (11, 0) };
        assert_eq!(refusal(b"", &table), Some(expected), "{} {}", char::from(a), char::from(b));
    }
}

/// A word in every mixture of cases.
fn in_every_case(word: &str) -> Vec<String> {
    let letter = |case: usize, (n, c): (usize, char)| if case >> n & 1 == 1 { c.to_ascii_lowercase() } else { c };
    (0..1 << word.len()).map(|case| word.char_indices().map(|at| letter(case, at)).collect()).collect()
}

/// A reserved word is no class and needs the class as a property.
#[test]
fn every_reserved_word() {
    for word in WORDS.iter().flat_map(|word| in_every_case(word)) {
        assert_eq!(refusal(b"", &class(word.as_bytes(), &[])), Some((2, 0)), "{word}");
        let (table, instance) = (class(b"C", &[word.as_bytes()]), write(NULL, &[]));
        assert_eq!(answer(&format!("C.{word} = NULL"), &table, &instance), (true, 1));
        let bare = refusal(format!("{word} = NULL").as_bytes(), &table);
        assert!(matches!(bare, Some((11, _))), "{word}: {bare:?}");
    }
}

/// A word with a letter more or less is a name like any other.
#[test]
fn words_near_the_reserved_ones() {
    for word in WORDS {
        for near in [format!("{word}x"), format!("{word}_"), format!("{word}1"), format!("x{word}"), word[1..].into()] {
            let (table, instance) = (class(near.as_bytes(), &[near.as_bytes()]), write(NULL, &[]));
            assert_eq!(answer(&format!("{near} = NULL"), &table, &instance), (true, 1));
            assert_eq!(answer(&format!("{} = NULL", near.to_lowercase()), &table, &instance), (true, 1));
        }
    }
}
