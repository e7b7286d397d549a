//! Random tables.

use crate::kind::{ARRAY, INTEGERS, TYPES};
use crate::random::Random;
use crate::record::{is_reserved, Property, Table};

const CLASSES: [&str; 6] = ["P", "Class_1", "_", "CIM_Service", "x", "Metric"];

const NAMES: [&str; 40] = [
    "On", "Temp", "Dev", "Name", "Since", "R", "A", "b", "_", "__", "_x1", "e5", "E", "B", "x00", "b1", "Class_1", "P",
    "And", "any", "EVERY", "False", "Like", "Not", "NULL", "or", "true", "NotAny", "AndOr", "a1", "a2", "a3", "T0",
    "T1", "Q_", "Zz9", "i", "j", "k", "l",
];

/// A kind that a property may have.
pub fn kind(r: &mut Random) -> u16 {
    r.pick(&TYPES) | r.pick(&[0, ARRAY])
}

fn has(table: &Table, name: &str) -> bool {
    table.find(name.as_bytes()).is_some()
}

/// A name that the table doesn't have.
pub fn new_name(r: &mut Random, table: &Table) -> String {
    loop {
        let name = match r.below(8) {
            0 => {
                let n = 1 + r.below(64);
                (0..n).map(|_| char::from(r.pick(b"abcXYZ_"))).collect()
            }
            1 => format!("n{}", r.below(1_000)),
            _ => r.pick(&NAMES).to_owned(),
        };
        if !has(table, &name) {
            return name;
        }
    }
}

/// A word that stands for no property and for no reserved word, sometimes longer than a name may be.
pub fn unknown_word(r: &mut Random, table: &Table) -> String {
    loop {
        let name = match r.below(6) {
            0 => "x".repeat(65 + r.below(10)),
            1 => "Nope".to_owned(),
            _ => new_name(r, table),
        };
        let class = table.class.eq_ignore_ascii_case(name.as_bytes());
        if !has(table, &name) && !is_reserved(name.as_bytes()) && !class {
            return name;
        }
    }
}

fn push(table: &mut Table, name: &str, kind: u16) {
    table.properties.push(Property { name: name.as_bytes().to_vec(), kind });
}

fn empty(r: &mut Random) -> Table {
    Table { class: r.pick(&CLASSES).as_bytes().to_vec(), properties: Vec::new() }
}

/// So many properties of random kinds, and the kinds asked for before them.
pub fn filled(r: &mut Random, kinds: &[u16], more: usize) -> Table {
    let mut table = empty(r);
    for n in 0..kinds.len() + more {
        let name = new_name(r, &table);
        let kind = kinds.get(n).copied().unwrap_or_else(|| kind(r));
        push(&mut table, &name, kind);
    }
    table
}

pub fn random(r: &mut Random) -> Table {
    let n = match r.below(60) {
        0 => 0,
        1 => 100 + r.below(29),
        _ => 1 + r.below(14),
    };
    filled(r, &[], n)
}

/// A table with a scalar and an array of every type, in random order, and a few more.
pub fn of_all_types(r: &mut Random) -> Table {
    let mut kinds: Vec<u16> = TYPES.iter().flat_map(|&plain| [plain, ARRAY | plain]).collect();
    for last in (1..kinds.len()).rev() {
        let other = r.below(last + 1);
        kinds.swap(last, other);
    }
    let more = r.below(5);
    filled(r, &kinds, more)
}

/// A table of a few properties of any kinds.
pub fn small(r: &mut Random) -> Table {
    let n = 1 + r.below(5);
    filled(r, &[], n)
}

/// A table of a few properties, most of them integers and arrays of these.
pub fn of_integers(r: &mut Random) -> Table {
    let n = 1 + r.below(5);
    let kinds: Vec<u16> =
        (0..n).map(|_| if r.chance(5) { kind(r) } else { r.pick(&INTEGERS) | r.pick(&[0, ARRAY]) }).collect();
    filled(r, &kinds, 0)
}

pub fn with_names(r: &mut Random, names: &[&str]) -> Table {
    let mut table = Table { class: b"P".to_vec(), properties: Vec::new() };
    for name in names {
        let kind = kind(r);
        push(&mut table, name, kind);
    }
    table
}
