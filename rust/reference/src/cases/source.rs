//! A table and a conforming instance to make queries for.

use super::tokens::{in_any_case, Tokens};
use super::{table, value, Case, Intended};
use crate::kind::{is_array, NULL};
use crate::random::Random;
use crate::record::{is_reserved, read, Record, Table};

/// A value's body, none for NULL.
pub type Body = Option<Vec<u8>>;

pub enum Held {
    Scalar(Body),
    Array(Option<Vec<Body>>),
}

pub struct Source {
    pub table: Table,
    pub instance: Vec<u8>,
    pub held: Vec<Held>,
    /// The properties that are picked before the others, mostly.
    pub often: Vec<usize>,
}

fn body(record: &Record) -> Body {
    (record.kind != NULL).then(|| record.body.to_vec())
}

fn held(kind: u16, record: &Record) -> Held {
    match is_array(kind) {
        false => Held::Scalar(body(record)),
        true => Held::Array(body(record).map(|elements| read(&elements).0.iter().map(body).collect())),
    }
}

impl Source {
    pub fn new(r: &mut Random, table: Table) -> Source {
        let instance = value::instance(r, &table);
        Source::with_instance(table, instance)
    }

    pub fn with_instance(table: Table, instance: Vec<u8>) -> Source {
        let held = table.properties.iter().zip(read(&instance).0).map(|(p, record)| held(p.kind, &record)).collect();
        Source { table, instance, held, often: Vec::new() }
    }

    pub fn random(r: &mut Random) -> Source {
        let table = if r.chance(2) { table::random(r) } else { table::of_all_types(r) };
        Source::new(r, table)
    }

    pub fn of_all_types(r: &mut Random) -> Source {
        let table = table::of_all_types(r);
        Source::new(r, table)
    }

    pub fn with_names(r: &mut Random, names: &[&str]) -> Source {
        let table = table::with_names(r, names);
        Source::new(r, table)
    }

    pub fn case(&self, sort: &'static str, query: Vec<u8>, intended: Intended) -> Case {
        Case { sort, query, table: self.table.write(), instance: self.instance.clone(), intended }
    }

    /// Some property whose kind keeps the rule.
    pub fn pick(&self, r: &mut Random, rule: impl Fn(u16) -> bool) -> Option<usize> {
        let fitting: Vec<usize> = (0..self.table.properties.len()).filter(|&n| rule(self.kind(n))).collect();
        let often: Vec<usize> = fitting.iter().copied().filter(|n| self.often.contains(n)).collect();
        let from = if often.is_empty() || r.chance(4) { fitting } else { often };
        (!from.is_empty()).then(|| r.pick(&from))
    }

    pub fn kind(&self, n: usize) -> u16 {
        self.table.properties[n].kind
    }

    /// The property's own name, or the class and the name; a reserved word needs the class.
    pub fn path(&self, r: &mut Random, n: usize) -> Tokens {
        let name = String::from_utf8(self.table.properties[n].name.clone()).unwrap();
        let written = in_any_case(r, &name);
        if !is_reserved(name.as_bytes()) && !r.chance(4) {
            return vec![written];
        }
        let class = String::from_utf8(self.table.class.clone()).unwrap();
        vec![in_any_case(r, &class), ".".to_owned(), written]
    }

    /// A value that the property holds, or one of its elements.
    pub fn near(&self, r: &mut Random, n: usize) -> Body {
        match &self.held[n] {
            Held::Scalar(body) => body.clone(),
            Held::Array(None) => None,
            Held::Array(Some(elements)) if elements.is_empty() => None,
            Held::Array(Some(elements)) => elements[r.below(elements.len())].clone(),
        }
    }
}
