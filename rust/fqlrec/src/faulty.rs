//! The record at fault in a table, a run or an instance.

use fql::record::{self, Record};

use crate::show::{property_line, raw_bytes, raw_record, value_line};
use crate::table::Table;

const LONGEST_TABLE: usize = 8_192;
/// The program refuses a longer run.
pub const LONGEST_RUN: usize = 65_536;
/// A longer line is cut, so that it can be read.
const LONGEST_LINE: usize = 100;

/// What starts at an offset.
enum Found<'a> {
    Record(Record<'a>),
    /// Bytes that are no whole record.
    Rest(&'a [u8]),
    End,
}

/// What starts at this offset, and the number from 0 that the record there has.
fn found(bytes: &[u8], offset: usize) -> (usize, Found<'_>) {
    let (records, rest) = record::read(bytes);
    let number = records.iter().take_while(|record| record.start < offset).count();
    let found = match records.get(number) {
        Some(record) => Found::Record(*record),
        None if rest.is_empty() => Found::End,
        None => Found::Rest(rest),
    };
    (number, found)
}

fn cut(line: String) -> String {
    match line.char_indices().nth(LONGEST_LINE) {
        Some((end, _)) => format!("{}...", &line[..end]),
        None => line,
    }
}

impl Found<'_> {
    fn describe(&self, line: impl Fn(&Record) -> String) -> String {
        match self {
            Found::Record(record) => cut(line(record)),
            Found::Rest(rest) => format!("{} ({})", cut(raw_bytes(rest)), shortness(rest)),
            Found::End => "nothing, the bytes end here".to_owned(),
        }
    }
}

/// Why some bytes are no whole record.
fn shortness(rest: &[u8]) -> String {
    match rest {
        [low, high, _, _, body @ ..] => {
            let length = u16::from_le_bytes([*low, *high]);
            format!("a body of {length} bytes, {} present", body.len())
        }
        _ => format!("length and kind are 4 bytes, {} present", rest.len()),
    }
}

pub fn in_table(table: &[u8], offset: usize) -> String {
    if table.len() > LONGEST_TABLE {
        return format!("table: it has {} bytes\n", table.len());
    }
    let (number, found) = found(table, offset);
    let shown = found.describe(|record| property_line(record, 0));
    format!("table, record {}, at byte {offset}:\n    {shown}\n", number + 1)
}

/// Of a run that the program doesn't take.
pub fn too_long(run: &[u8]) -> String {
    format!("run: it has {} bytes, and the program takes {LONGEST_RUN}\n", run.len())
}

pub fn in_run(run: &[u8], offset: usize) -> String {
    let (number, found) = found(run, offset);
    let shown = found.describe(raw_record);
    format!("run, record {}, at byte {offset}:\n    {shown}\n", number + 1)
}

/// The record that the table asks for, and what stands there.
pub fn in_instance(table: &[u8], instance: &[u8], offset: usize) -> String {
    let table = Table::read(table);
    let (number, found) = found(instance, offset);
    let property = table.properties().get(number).cloned().flatten();
    let asked = match table.records.get(number) {
        Some(record) => property_line(record, 0),
        None => "a whole record".to_owned(),
    };
    let shown = found.describe(|record| value_line(record, property.as_ref(), 0));
    format!("    asked for: {asked}\n    found:     {shown}\n")
}
