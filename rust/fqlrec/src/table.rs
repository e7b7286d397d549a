//! A table as far as it can be shown with words, whether the engine accepts it or not.

use fql::record::{self, Record, CLASS};

use crate::types;

#[derive(Clone, Debug, PartialEq, Eq)]
pub struct Property {
    pub name: String,
    pub kind: u16,
}

pub struct Table<'a> {
    /// None if the first record isn't that of a class.
    pub class: Option<&'a str>,
    /// The records after the class's, or all.
    pub records: Vec<Record<'a>>,
    /// What is left at the end and is no whole record.
    pub rest: &'a [u8],
}

impl<'a> Table<'a> {
    pub fn read(bytes: &'a [u8]) -> Table<'a> {
        let (mut records, rest) = record::read(bytes);
        let class = records.first().filter(|r| r.kind == CLASS).and_then(|r| name(r.body));
        if class.is_some() {
            records.remove(0);
        }
        Table { class, records, rest }
    }

    /// The properties in order, none for a record that is none's.
    pub fn properties(&self) -> Vec<Option<Property>> {
        self.records.iter().map(property).collect()
    }
}

pub fn property(record: &Record) -> Option<Property> {
    types::show(record.kind)?;
    Some(Property { name: name(record.body)?.to_owned(), kind: record.kind })
}

/// The body as a name, if it is one.
pub fn name(body: &[u8]) -> Option<&str> {
    let text = std::str::from_utf8(body).ok()?;
    is_name(text).then_some(text)
}

/// A letter or `_`, then letters, digits, `_`; 1 to 64 bytes.
pub fn is_name(text: &str) -> bool {
    let starts = text.starts_with(|c: char| c.is_ascii_alphabetic() || c == '_');
    starts && text.len() <= 64 && text.bytes().all(|b| b.is_ascii_alphanumeric() || b == b'_')
}
