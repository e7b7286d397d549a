//! Two conforming instances of one table (02, Q-3): of some properties they hold the same record, byte for byte, and of
//! the rest two.

mod changes;
mod naming;
pub mod notion;
pub mod run;

use std::collections::BTreeSet;

use super::source::Source;
use super::{mostly_accepted, table, value, Input};
use crate::kind::{is_array, NULL, OCTETS, REFERENCE, STRING};
use crate::named::{mentions, named_properties};
use crate::random::Random;
use crate::record::{read, write, Table, LENGTH_OF_INSTANCE};
pub use changes::Changes;
pub use naming::Naming;
use notion::Notion;

pub struct Pair {
    pub query: Vec<u8>,
    pub table: Vec<u8>,
    pub first: Vec<u8>,
    pub second: Vec<u8>,
    /// The properties that the query names.
    pub named: BTreeSet<usize>,
}

impl Pair {
    pub fn inputs(&self) -> [Input<'_>; 2] {
        [&self.first, &self.second].map(|instance| [&self.query[..], &self.table, instance])
    }

    pub fn changed(&self) -> BTreeSet<usize> {
        changed_properties(&self.table, [&self.first, &self.second])
    }
}

/// The properties for which two conforming instances hold two records.
pub fn changed_properties(table: &[u8], instances: [&[u8]; 2]) -> BTreeSet<usize> {
    let properties = Table::read(table).unwrap().properties.len();
    let [first, second] = instances.map(records);
    (0..properties).filter(|&n| first[n] != second[n]).collect()
}

/// What the second half of a pair is derived from: a table with an instance, a query, and the properties that it names.
struct Origin {
    source: Source,
    query: Vec<u8>,
    named: BTreeSet<usize>,
}

/// The records of an instance, one after the other.
type Records = Vec<Vec<u8>>;

fn records(instance: &[u8]) -> Records {
    read(instance).0.iter().map(|record| write(record.kind, record.body)).collect()
}

fn origin(r: &mut Random) -> Origin {
    let table = match r.below(5) {
        0 => table::of_all_types(r),
        1 => table::of_integers(r),
        2 => table::random(r),
        _ => table::small(r),
    };
    let source = Source::new(r, table);
    let query = mostly_accepted(r, &source);
    let named = named_properties(&query, &source.table.write());
    Origin { source, query, named }
}

/// The instance of an origin, and what a change makes of its records; another origin where that is the same instance or
/// too long a one.
fn pair(r: &mut Random, change: impl Fn(&mut Random, &Origin, &mut Records)) -> Pair {
    loop {
        let origin = origin(r);
        let mut changed = records(&origin.source.instance);
        change(r, &origin, &mut changed);
        let second = changed.concat();
        let Origin { source, query, named } = origin;
        if second != source.instance && second.len() <= LENGTH_OF_INSTANCE {
            return Pair { query, table: source.table.write(), first: source.instance, second, named };
        }
    }
}

/// For each property that the query doesn't name the second instance holds another record; further records may differ
/// too.
pub fn with_unnamed_changed(r: &mut Random) -> Pair {
    pair(r, |r, origin, records| change_all_but(r, &origin.source.table, &origin.named, records))
}

/// The same for each property that a notion leaves out, named or not.
pub fn with_left_out_changed(r: &mut Random, notion: Notion) -> Pair {
    pair(r, |r, origin, records| {
        let table = &origin.source.table;
        let kept = notion(table, &mentions(&origin.query, &table.write()));
        change_all_but(r, table, &kept, records);
    })
}

/// For each property that the query names the second instance holds another record; all else is the same.
pub fn with_named_changed(r: &mut Random) -> Pair {
    pair(r, |r, origin, records| {
        for &n in &origin.named {
            records[n] = another(r, origin.source.kind(n), &records[n]);
        }
    })
}

/// For one property, named or not, the second instance holds another record; all else is the same.
pub fn with_one_changed(r: &mut Random) -> Pair {
    pair(r, |r, origin, records| {
        if let Some(n) = origin.source.pick(r, |_| true) {
            records[n] = another(r, origin.source.kind(n), &records[n]);
        }
    })
}

/// For the properties that the query names the second instance holds records of the same body, but NULL for an empty one
/// or the reverse; all else is the same.
pub fn with_other_kinds(r: &mut Random) -> Pair {
    pair(r, |_, origin, records| {
        for &n in &origin.named {
            records[n] = of_the_same_body(origin.source.kind(n), &records[n]);
        }
    })
}

/// Another record for each property that isn't kept, and now and then other further records.
fn change_all_but(r: &mut Random, table: &Table, kept: &BTreeSet<usize>, records: &mut Records) {
    let further = records.split_off(table.properties.len());
    for (n, property) in table.properties.iter().enumerate() {
        if !kept.contains(&n) {
            records[n] = another(r, property.kind, &records[n]);
        }
    }
    records.extend(other_further(r, further));
}

/// Another record for a property of this kind.
fn another(r: &mut Random, kind: u16, record: &[u8]) -> Vec<u8> {
    loop {
        let made = value::record(r, kind);
        if made != record {
            return made;
        }
    }
}

/// Further records: none, fewer, more or others.
fn other_further(r: &mut Random, mut own: Records) -> Records {
    let others = records(&value::subclass(r));
    match r.below(4) {
        0 => Vec::new(),
        1 => {
            own.pop();
            own
        }
        2 => [own, others].concat(),
        _ => others,
    }
}

fn of_the_same_body(kind: u16, record: &[u8]) -> Vec<u8> {
    let may_be_empty = is_array(kind) || [STRING, OCTETS, REFERENCE].contains(&kind);
    let (null, empty) = (write(NULL, &[]), write(kind, &[]));
    match may_be_empty {
        true if record == null => empty,
        true if record == empty => null,
        _ => record.to_vec(),
    }
}
