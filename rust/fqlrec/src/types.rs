//! The words for the types, as CIM has them, and for arrays of them.

use fql::record::ARRAY;
use fql::types::{BOOLEAN, CHAR16, DATETIME, OCTETS, REAL32, REAL64, REFERENCE, STRING};
use fql::types::{SINT16, SINT32, SINT64, SINT8, UINT16, UINT32, UINT64, UINT8};

use crate::line::Line;
use crate::problem::Problem;

const WORDS: [(&str, u16); 16] = [
    ("boolean", BOOLEAN),
    ("uint8", UINT8),
    ("uint16", UINT16),
    ("uint32", UINT32),
    ("uint64", UINT64),
    ("sint8", SINT8),
    ("sint16", SINT16),
    ("sint32", SINT32),
    ("sint64", SINT64),
    ("real32", REAL32),
    ("real64", REAL64),
    ("string", STRING),
    ("char16", CHAR16),
    ("octets", OCTETS),
    ("datetime", DATETIME),
    ("reference", REFERENCE),
];

fn type_of(word: &str) -> Option<u16> {
    WORDS.iter().find(|known| known.0 == word).map(|known| known.1)
}

pub fn is_word(word: &str) -> bool {
    type_of(word).is_some()
}

/// The words for a property's kind, none if a table can't have it.
pub fn show(kind: u16) -> Option<String> {
    let (word, _) = WORDS.iter().find(|known| known.1 == kind & !ARRAY)?;
    Some(if kind & ARRAY == 0 { word.to_string() } else { format!("{word}[]") })
}

pub fn read(line: &mut Line) -> Result<u16, Problem> {
    let start = line.offset();
    let Some(plain) = type_of(line.word()) else {
        let words = WORDS.map(|known| known.0).join(", ");
        return Err(line.problem_at(start, format!("a type is needed here: {words}")));
    };
    if !line.take("[") {
        return Ok(plain);
    }
    line.expect("]")?;
    Ok(ARRAY | plain)
}
