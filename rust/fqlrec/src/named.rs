//! The properties that an accepted query names. Only these count: what an instance holds besides changes no answer
//! (document 02, Q-3).

use fql::record::{self, Record};

/// Their names, in the table's order. A table that lacks a property has all the other names still, so the check refuses
/// the query under it exactly if it names that one.
pub fn named(query: &[u8], table: &[u8]) -> Vec<String> {
    let (records, _) = record::read(table);
    let properties = records.iter().skip(1);
    let named = properties.filter(|property| fql::check(query, &without(table, property)).is_err());
    named.map(|property| String::from_utf8_lossy(property.body).into_owned()).collect()
}

fn without(table: &[u8], record: &Record) -> Vec<u8> {
    let length = record::write(record.kind, record.body).len();
    [&table[..record.start], &table[record.start + length..]].concat()
}
