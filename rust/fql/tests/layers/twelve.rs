//! Classes of twelve properties that all hold different values of types that may meet: a comparison that reads another
//! property's record has another answer.

use fql::record::{write, ARRAY, INSTANCE, NULL};
use fql::types::{CHAR16, DATETIME, OCTETS, REAL32, REAL64, REFERENCE, STRING};
use reference::Answer;

use crate::common::{agree, agree_on_marks};
use crate::seen::Seen;
use crate::tables::table_of;
use crate::widths::INTEGERS;

const COUNT: usize = 12;

/// A value: its type, its body and a literal of it.
type Value = (u16, Vec<u8>, String);

/// For a property by its number the n-th value, of a type that depends on the property alone.
type Values = fn(property: usize, n: usize) -> Value;

const ROWS: [Values; 6] = [integer, real, text, octets, datetime, reference];

fn integer(property: usize, n: usize) -> Value {
    let (kind, bytes, ..) = INTEGERS[property % 8];
    (kind, n.to_le_bytes()[..bytes].to_vec(), n.to_string())
}

fn real(property: usize, n: usize) -> Value {
    let literal = format!("{n}.5");
    match property % 2 {
        0 => (REAL32, (n as f32 + 0.5).to_le_bytes().to_vec(), literal),
        _ => (REAL64, (n as f64 + 0.5).to_le_bytes().to_vec(), literal),
    }
}

/// Each third is one character, the others have different lengths.
fn text(property: usize, n: usize) -> Value {
    let text = format!("{n}{}", "x".repeat(n * 7 % 40));
    match property % 3 {
        2 => (CHAR16, (0x4e00 + n as u16).to_le_bytes().to_vec(), format!("'\\u{:04x}'", 0x4e00 + n)),
        _ => (STRING, text.clone().into_bytes(), format!("'{text}'")),
    }
}

fn octets(_: usize, n: usize) -> Value {
    let bytes = vec![n as u8; 1 + n % 5];
    let digits: String = bytes.iter().map(|byte| format!("{byte:02x}")).collect();
    (OCTETS, bytes, format!("0x{digits}"))
}

/// Each second is a day whose time is unknown.
fn datetime(_: usize, n: usize) -> Value {
    let clock = if n.is_multiple_of(2) { "112233.000000" } else { "******.******" };
    let text = format!("2005{:02}{:02}{clock}+000", 1 + n / 28, 1 + n % 28);
    (DATETIME, text.clone().into_bytes(), format!("'{text}'"))
}

fn reference(_: usize, n: usize) -> Value {
    let text = format!("a/b:C.k={n}{}", "x".repeat(n % 7));
    (REFERENCE, text.clone().into_bytes(), format!("'{text}'"))
}

/// A row's values as scalars, or each as the first element of an array.
#[derive(Clone, Copy)]
struct Class {
    values: Values,
    arrays: bool,
}

impl Class {
    fn all() -> impl Iterator<Item = Class> {
        ROWS.into_iter().flat_map(|values| [false, true].map(|arrays| Class { values, arrays }))
    }

    fn table(self) -> Vec<u8> {
        let array = if self.arrays { ARRAY } else { 0 };
        let property = |n: usize| (format!("P{n}"), (self.values)(n, 0).0 | array);
        table_of("C", &(0..COUNT).map(property).collect::<Vec<_>>())
    }

    /// An array has up to three NULLs behind its value.
    fn record(self, property: usize, n: usize) -> Vec<u8> {
        let (kind, body, _) = (self.values)(property, n);
        let value = write(kind, &body);
        match self.arrays {
            true => write(ARRAY | kind, &[value, write(NULL, &[]).repeat(n % 4)].concat()),
            false => value,
        }
    }

    /// The n-th value for the first property, the next for the second, and so on.
    fn records(self, n: usize) -> Vec<Vec<u8>> {
        (0..COUNT).map(|property| self.record(property, n + property)).collect()
    }

    fn literal(self, property: usize, n: usize) -> String {
        (self.values)(property, n).2
    }

    fn path(self, property: usize) -> String {
        format!("P{property}{}", if self.arrays { "[0]" } else { "" })
    }
}

/// Verdict and steps on the engine and on the second evaluator.
fn hold(class: Class, query: &str, records: &[Vec<u8>], included: bool, steps: u64) {
    let found = agree(query.as_bytes(), &class.table(), &records.concat());
    assert_eq!(found, Ok(Answer { included, steps }), "{query}");
}

/// Each class with each two of its properties.
fn pairs() -> impl Iterator<Item = (Class, usize, usize)> {
    Class::all().flat_map(|class| (0..COUNT).flat_map(move |i| (0..COUNT).map(move |j| (class, i, j))))
}

/// Each property beside each one's value, beside each property, and before each in a query.
#[test]
fn every_two_properties() {
    for (class, i, j) in pairs() {
        let records = class.records(0);
        let ([left, right], [own, other]) = ([i, j].map(|n| class.path(n)), [i, j].map(|n| class.literal(n, n)));
        hold(class, &format!("{left} = {other}"), &records, i == j, 1);
        hold(class, &format!("{left} = {right}"), &records, i == j, 1);
        hold(class, &format!("{left} <> {right}"), &records, i != j, 1);
        hold(class, &format!("{left} = {own} AND {right} = {other}"), &records, true, 2);
    }
}

/// One property is NULL, between others that aren't.
#[test]
fn every_property_as_null() {
    for (class, i, j) in pairs() {
        let mut records = class.records(0);
        records[i] = write(NULL, &[]);
        hold(class, &format!("{} = NULL", class.path(j)), &records, i == j, 1);
        hold(class, &format!("{} = {}", class.path(j), class.literal(j, j)), &records, i != j, 1);
    }
}

/// Instances that don't conform: NULL with a body stands for a property, or the instance ends before it.
fn at_fault(class: Class, property: usize) -> [Vec<u8>; 2] {
    let mut records = class.records(46);
    records[property] = write(NULL, &[0]);
    [records.concat(), records[..property].concat()]
}

/// Only the instance between two that are at fault has the value that is asked for.
#[test]
fn every_fault_between_two_that_conform() {
    let mut seen = Seen::default();
    for (class, named, fault) in pairs() {
        let [first, second] = [0, 23].map(|n| class.records(n));
        let starts = [&first, &second].map(|records| records[..named].concat().len());
        let [first, second] = [first, second].map(|records| records.concat());
        for faulty in at_fault(class, fault) {
            let run = [&first, &faulty, &second, &faulty, &first].map(|body| write(INSTANCE, body)).concat();
            for (operator, expected) in [("=", [0, 255, 1, 255, 0]), ("<>", [1, 255, 0, 255, 1])] {
                let query = format!("{} {operator} {}", class.path(named), class.literal(named, 23 + named));
                let (_, marks) = agree_on_marks(query.as_bytes(), &class.table(), &run, &[7; 5]);
                assert_eq!(marks, expected, "{query}, at fault in property {fault}");
            }
        }
        seen.add(if starts[0] == starts[1] { "named at the same place" } else { "named elsewhere" });
    }
    seen.assert_at_least(&[("named at the same place", 600), ("named elsewhere", 1_000)]);
}
