//! A table and an instance beside others that hold the same whole numbers in other integer types (02, Q-2): a query
//! keeps its answer.

use super::source::Source;
use super::{mostly_accepted, table, value, Input};
use crate::integer;
use crate::kind::{is_array, type_of, ARRAY, INTEGERS, NULL};
use crate::random::Random;
use crate::record::{read, write, Record, LENGTH_OF_INSTANCE};

/// How the bytes of a number in one type become those of another: from, to, and the bytes.
pub type Store = fn(u16, u16, &[u8]) -> Vec<u8>;

/// The same whole number.
pub fn same_number(from: u16, to: u16, body: &[u8]) -> Vec<u8> {
    integer::read(from, body).and_then(|n| integer::write(to, n)).unwrap()
}

/// The wrong way for a negative number in more bytes: it becomes a positive one.
pub fn zero_extended(_: u16, to: u16, body: &[u8]) -> Vec<u8> {
    let mut out = body.to_vec();
    out.resize(integer::write(to, 0).unwrap().len(), 0);
    out
}

pub struct Pair {
    pub query: Vec<u8>,
    /// A table and an instance.
    pub first: (Vec<u8>, Vec<u8>),
    /// The same numbers in other types.
    pub second: (Vec<u8>, Vec<u8>),
    pub changes: Changes,
}

impl Pair {
    pub fn inputs(&self) -> [Input<'_>; 2] {
        [&self.first, &self.second].map(|(table, instance)| [&self.query[..], table, instance])
    }
}

/// How many properties have another type, what stands in these, and in how many pairs the subclass's records differ.
#[derive(Clone, Copy, Debug, Default)]
pub struct Changes {
    pub scalars: usize,
    pub arrays: usize,
    /// Into more bytes, into fewer, and into as many with or without the sign.
    pub wider: usize,
    pub narrower: usize,
    pub of_another_sign: usize,
    pub nulls: usize,
    pub null_elements: usize,
    pub negative_numbers: usize,
    pub subclass_records: usize,
}

pub fn pair(r: &mut Random, store: Store) -> Pair {
    loop {
        let table = table::of_integers(r);
        let source = Source::new(r, table);
        let query = mostly_accepted(r, &source);
        if let Some(pair) = changed(r, &source, query, store) {
            return pair;
        }
    }
}

/// The pair of a source and its numbers in other types, unless the other instance is too long.
fn changed(r: &mut Random, source: &Source, query: Vec<u8>, store: Store) -> Option<Pair> {
    let (records, _) = read(&source.instance);
    let mut changes = Changes::default();
    let mut table = source.table.clone();
    let mut instance = Vec::new();
    for (property, record) in table.properties.iter_mut().zip(&records) {
        let from = property.kind;
        let to = another_kind(r, from, record);
        changes.count(from, to, record);
        property.kind = to;
        instance.extend(stored(from, to, record, store));
    }
    let own: Vec<u8> = records[table.properties.len()..].iter().flat_map(|r| write(r.kind, r.body)).collect();
    let others = if r.chance(2) { value::subclass(r) } else { Vec::new() };
    changes.subclass_records = usize::from(own != others);
    instance.extend(others);
    (instance.len() <= LENGTH_OF_INSTANCE).then(|| Pair {
        query,
        first: (source.table.write(), source.instance.clone()),
        second: (table.write(), instance),
        changes,
    })
}

/// The bodies of a property's record that aren't NULL, and how many are.
fn bodies<'a>(kind: u16, record: &Record<'a>) -> (Vec<&'a [u8]>, usize) {
    let elements = match (record.kind, is_array(kind)) {
        (NULL, _) => Vec::new(),
        (_, true) => read(record.body).0,
        (_, false) => vec![*record],
    };
    let held: Vec<&[u8]> = elements.iter().filter(|e| e.kind != NULL).map(|e| e.body).collect();
    let nulls = elements.len() - held.len();
    (held, nulls)
}

/// For an integer property a kind of the same shape that holds all its numbers; for another its own.
fn another_kind(r: &mut Random, kind: u16, record: &Record) -> u16 {
    let plain = type_of(kind);
    if !INTEGERS.contains(&plain) {
        return kind;
    }
    let (held, _) = bodies(kind, record);
    let numbers: Vec<i128> = held.iter().map(|body| integer::read(plain, body).unwrap()).collect();
    let holds = |to: &u16| numbers.iter().all(|&n| integer::write(*to, n).is_some());
    let fitting: Vec<u16> = INTEGERS.into_iter().filter(holds).collect();
    r.pick(&fitting) | (kind & ARRAY)
}

fn stored(from: u16, to: u16, record: &Record, store: Store) -> Vec<u8> {
    let value = |r: &Record| match r.kind {
        NULL => write(NULL, &[]),
        _ => write(type_of(to), &store(type_of(from), type_of(to), r.body)),
    };
    match (from == to || record.kind == NULL, is_array(from)) {
        (true, _) => write(record.kind, record.body),
        (false, true) => write(to, &read(record.body).0.iter().flat_map(value).collect::<Vec<u8>>()),
        (false, false) => value(record),
    }
}

impl Changes {
    pub fn add(&mut self, other: &Changes) {
        self.scalars += other.scalars;
        self.arrays += other.arrays;
        self.wider += other.wider;
        self.narrower += other.narrower;
        self.of_another_sign += other.of_another_sign;
        self.nulls += other.nulls;
        self.null_elements += other.null_elements;
        self.negative_numbers += other.negative_numbers;
        self.subclass_records += other.subclass_records;
    }

    fn count(&mut self, from: u16, to: u16, record: &Record) {
        if from == to {
            return;
        }
        let length = |kind: u16| integer::write(type_of(kind), 0).unwrap().len();
        let (held, null_elements) = bodies(from, record);
        let is_negative = |body: &&&[u8]| integer::read(type_of(from), body).is_some_and(|n| n < 0);
        self.scalars += usize::from(!is_array(from));
        self.arrays += usize::from(is_array(from));
        self.wider += usize::from(length(to) > length(from));
        self.narrower += usize::from(length(to) < length(from));
        self.of_another_sign += usize::from(length(to) == length(from));
        self.nulls += usize::from(record.kind == NULL);
        self.null_elements += null_elements;
        self.negative_numbers += held.iter().filter(is_negative).count();
    }
}
