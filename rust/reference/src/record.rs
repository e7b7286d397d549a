//! Records, tables and instances, read with the standard library's slices.

use crate::kind::{
    is_of_a_table, type_of, BOOLEAN, CHAR16, CLASS, DATETIME, INTEGERS, NULL, OCTETS, REAL32, REAL64, REFERENCE, STRING,
};
use crate::{datetime, integer};

pub const LENGTH_OF_TABLE: usize = 8_192;
pub const LENGTH_OF_INSTANCE: usize = 65_535;

/// A refusal: its number and its place.
pub type Fault = (u64, u64);

#[derive(Clone, Copy)]
pub struct Record<'a> {
    pub start: usize,
    pub kind: u16,
    pub body: &'a [u8],
}

/// One record as bytes.
pub fn write(kind: u16, body: &[u8]) -> Vec<u8> {
    let mut out = (body.len() as u16).to_le_bytes().to_vec();
    out.extend(kind.to_le_bytes());
    out.extend(body);
    out
}

/// The whole records of some bytes, and where the first that isn't whole starts.
pub fn read(bytes: &[u8]) -> (Vec<Record<'_>>, Option<usize>) {
    let mut records = Vec::new();
    let mut start = 0;
    while start < bytes.len() {
        let rest = &bytes[start..];
        let Some((head, tail)) = rest.split_at_checked(4) else { return (records, Some(start)) };
        let length = usize::from(u16::from_le_bytes([head[0], head[1]]));
        let Some(body) = tail.get(..length) else { return (records, Some(start)) };
        records.push(Record { start, kind: u16::from_le_bytes([head[2], head[3]]), body });
        start += 4 + length;
    }
    (records, None)
}

pub fn is_name(bytes: &[u8]) -> bool {
    let [first, rest @ ..] = bytes else { return false };
    let word = |b: &u8| b.is_ascii_alphanumeric() || *b == b'_';
    bytes.len() <= 64 && word(first) && !first.is_ascii_digit() && rest.iter().all(word)
}

pub fn is_reserved(bytes: &[u8]) -> bool {
    let words = ["AND", "OR", "NOT", "ANY", "EVERY", "LIKE", "TRUE", "FALSE", "NULL"];
    words.iter().any(|w| bytes.eq_ignore_ascii_case(w.as_bytes()))
}

#[derive(Clone, Debug)]
pub struct Property {
    pub name: Vec<u8>,
    pub kind: u16,
}

#[derive(Clone, Debug)]
pub struct Table {
    pub class: Vec<u8>,
    pub properties: Vec<Property>,
}

impl Table {
    pub fn read(bytes: &[u8]) -> Result<Table, Fault> {
        if bytes.len() > LENGTH_OF_TABLE {
            return Err((2, 0));
        }
        let (records, broken) = read(bytes);
        let class = match records.first() {
            Some(r) if r.kind == CLASS && is_name(r.body) && !is_reserved(r.body) => r.body.to_vec(),
            _ => return Err((2, 0)),
        };
        let mut properties: Vec<Property> = Vec::new();
        for r in &records[1..] {
            if properties.len() == 128 || !is_of_a_table(r.kind) || !is_name(r.body) {
                return Err((2, r.start as u64));
            }
            if properties.iter().any(|p| p.name.eq_ignore_ascii_case(r.body)) {
                return Err((3, r.start as u64));
            }
            properties.push(Property { name: r.body.to_vec(), kind: r.kind });
        }
        match broken {
            Some(start) => Err((2, start as u64)),
            None => Ok(Table { class, properties }),
        }
    }

    pub fn write(&self) -> Vec<u8> {
        let class = write(CLASS, &self.class);
        self.properties.iter().fold(class, |out, p| [out, write(p.kind, &p.name)].concat())
    }

    /// The number of the property with this name, and its kind.
    pub fn find(&self, name: &[u8]) -> Option<(usize, u16)> {
        let number = self.properties.iter().position(|p| p.name.eq_ignore_ascii_case(name))?;
        Some((number, self.properties[number].kind))
    }
}

fn is_value(kind: u16, body: &[u8]) -> bool {
    match kind {
        BOOLEAN => matches!(body, [0] | [1]),
        REAL32 => body.len() == 4,
        REAL64 => body.len() == 8,
        STRING | REFERENCE => std::str::from_utf8(body).is_ok(),
        CHAR16 => body.len() == 2 && char::from_u32(u32::from(u16::from_le_bytes([body[0], body[1]]))).is_some(),
        OCTETS => true,
        DATETIME => datetime::parse(body).is_some(),
        _ if INTEGERS.contains(&kind) => integer::read(kind, body).is_some(),
        _ => {
            let (elements, broken) = read(body);
            let fits = |r: &Record| is_slot(type_of(kind), r);
            broken.is_none() && elements.len() <= 256 && elements.iter().all(fits)
        }
    }
}

fn is_slot(kind: u16, r: &Record) -> bool {
    (r.kind == NULL && r.body.is_empty()) || (r.kind == kind && is_value(kind, r.body))
}

/// The refusal of an instance under a table without faults, if it doesn't conform.
pub fn check_instance(table: &Table, bytes: &[u8]) -> Option<Fault> {
    if bytes.len() > LENGTH_OF_INSTANCE {
        return Some((30, 0));
    }
    let (records, broken) = read(bytes);
    for (number, p) in table.properties.iter().enumerate() {
        match records.get(number) {
            Some(r) if is_slot(p.kind, r) => {}
            Some(r) => return Some((31, r.start as u64)),
            None => return Some((31, broken.unwrap_or(bytes.len()) as u64)),
        }
    }
    broken.map(|start| (31, start as u64))
}
