//! Tables and runs as text, in its normal form. Every byte string has one, and it reads back to the same bytes.

use fql::record::{self, Record, INSTANCE};

use crate::table::{property, Property, Table};
use crate::{hex, types, value, Files};

pub fn show(files: &Files) -> String {
    let table = Table::read(&files.table);
    let properties = table.properties();
    let mut out = String::new();
    show_table(&table, &properties, &mut out);
    let (records, rest) = record::read(&files.run);
    for r in &records {
        match r.kind {
            INSTANCE => show_instance(r.body, &properties, &mut out),
            _ => out += &format!("{}\n", raw_record(r)),
        }
    }
    if !rest.is_empty() {
        out += &format!("{}\n", raw_bytes(rest));
    }
    out
}

fn show_table(table: &Table, properties: &[Option<Property>], out: &mut String) {
    match table.class {
        Some(class) => *out += &format!("class {class}\n"),
        None if table.records.is_empty() && table.rest.is_empty() => return,
        None => *out += "table\n",
    }
    let width = width(properties);
    for record in &table.records {
        *out += &format!("    {}\n", property_line(record, width));
    }
    if !table.rest.is_empty() {
        *out += &format!("    {}\n", raw_bytes(table.rest));
    }
}

fn show_instance(body: &[u8], properties: &[Option<Property>], out: &mut String) {
    *out += "instance\n";
    let width = width(properties);
    let (records, rest) = record::read(body);
    for (n, record) in records.iter().enumerate() {
        let property = properties.get(n).and_then(Option::as_ref);
        *out += &format!("    {}\n", value_line(record, property, width));
    }
    if !rest.is_empty() {
        *out += &format!("    {}\n", raw_bytes(rest));
    }
}

/// That of the longest name.
fn width(properties: &[Option<Property>]) -> usize {
    properties.iter().flatten().map(|p| p.name.len()).max().unwrap_or(0)
}

/// A table's record, with a name of at least this width.
pub fn property_line(record: &Record, width: usize) -> String {
    match property(record) {
        Some(Property { name, kind }) => format!("{name:width$}  {}", types::show(kind).unwrap()),
        None => raw_record(record),
    }
}

/// An instance's record, with a name of at least this width.
pub fn value_line(record: &Record, property: Option<&Property>, width: usize) -> String {
    let shown = property.and_then(|p| Some((&p.name, value::show(p.kind, record.kind, record.body)?)));
    match shown {
        Some((name, value)) => format!("{name:width$} = {value}"),
        None => raw_record(record),
    }
}

pub fn raw_record(record: &Record) -> String {
    format!("record 0x{:04X} {}", record.kind, hex::show(record.body)).trim_end().to_owned()
}

pub fn raw_bytes(bytes: &[u8]) -> String {
    format!("bytes {}", hex::show(bytes))
}
