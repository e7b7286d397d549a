//! An input of check, evaluate and mark, within the limits of each.

use reference::kind::{CLASS, INSTANCE};
use reference::record::{write, LENGTH_OF_INSTANCE, LENGTH_OF_TABLE};

pub const LENGTH_OF_QUERY: usize = 4_096;
pub const COMPARISONS: usize = 64;

pub struct Input {
    pub name: String,
    pub query: Vec<u8>,
    pub table: Vec<u8>,
    pub instance: Vec<u8>,
}

impl Input {
    pub fn new(name: &str, query: String, table: Vec<u8>, instance: Vec<u8>) -> Input {
        assert!(query.len() <= LENGTH_OF_QUERY, "{name}: the query has {} bytes", query.len());
        assert!(table.len() <= LENGTH_OF_TABLE, "{name}: the table has {} bytes", table.len());
        assert!(instance.len() <= LENGTH_OF_INSTANCE, "{name}: the instance has {} bytes", instance.len());
        Input { name: name.into(), query: query.into_bytes(), table, instance }
    }

    /// One instance as a run.
    pub fn run(&self) -> Vec<u8> {
        write(INSTANCE, &self.instance)
    }
}

/// A class `P` with these properties.
pub fn table(properties: &[(u16, &str)]) -> Vec<u8> {
    properties.iter().fold(write(CLASS, b"P"), |out, (kind, name)| [out, write(*kind, name.as_bytes())].concat())
}

/// The comparison again and again, as often as a query may hold it. A string's end needs no space before the join.
pub fn filled(comparison: &str, join: &str) -> String {
    let glue = if comparison.ends_with('\'') { format!("{join} ") } else { format!(" {join} ") };
    let fitting = (LENGTH_OF_QUERY + glue.len()) / (comparison.len() + glue.len());
    vec![comparison; fitting.min(COMPARISONS)].join(&glue)
}
