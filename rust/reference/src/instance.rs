//! The values of an instance, one slot for each property of the table (01, "Records").

use crate::kind::{is_array, NULL};
use crate::record::{check_instance, read, Record, Table};
use crate::refusal::Refusal;
use crate::value::Value;

#[derive(Clone, Debug, PartialEq)]
pub enum Slot {
    Scalar(Value),
    /// The elements, or none where the array itself is NULL.
    Array(Option<Vec<Value>>),
}

/// The slots of a conforming instance; subclass records are left out.
pub fn decode(table: &Table, instance: &[u8]) -> Result<Vec<Slot>, Refusal> {
    match check_instance(table, instance) {
        Some(fault) => Err(fault.into()),
        None => {
            let (records, _) = read(instance);
            Ok(table.properties.iter().zip(&records).map(|(p, record)| slot(p.kind, record)).collect())
        }
    }
}

fn slot(kind: u16, record: &Record) -> Slot {
    match (is_array(kind), record.kind) {
        (false, _) => Slot::Scalar(Value::decode(record.kind, record.body)),
        (true, NULL) => Slot::Array(None),
        (true, _) => {
            let (elements, _) = read(record.body);
            Slot::Array(Some(elements.iter().map(|e| Value::decode(e.kind, e.body)).collect()))
        }
    }
}
