//! Wide tables: up to 128 properties, instances whose records are of many lengths, so that a property starts elsewhere
//! in each, and queries that name some properties more often than others. And runs of such instances, with some between
//! them that don't conform.

use super::source::Source;
use super::{comparison, spoil, table, value, Case, Intended};
use crate::kind::{ARRAY, STRING, TYPES};
use crate::random::Random;
use crate::record::{check_instance, read, write, Table, LENGTH_OF_INSTANCE};

/// The properties that queries name most often, counted from 0: the first two of a table, the last two of the widest
/// one, and one between them.
pub const OFTEN: [usize; 5] = [0, 1, 63, 126, 127];

/// Where an instance is at fault.
#[derive(Clone, Copy, Debug, PartialEq, Eq)]
pub enum Fault {
    First,
    Middle,
    Last,
    /// All properties have their records; what follows is none.
    Behind,
    /// The instance ends early.
    CutShort,
    /// A record is longer than its value, or than what is left of the instance.
    TooLong,
    Empty,
}

const FAULTS: [Fault; 7] =
    [Fault::First, Fault::Middle, Fault::Last, Fault::Behind, Fault::CutShort, Fault::TooLong, Fault::Empty];

/// A query on one instance; one in four is at fault.
pub fn case(r: &mut Random) -> Case {
    let source = source(r);
    let query = query(r, &source);
    let case = source.case("wide", query, Intended::Answer);
    match r.chance(4) {
        false => case,
        true => {
            let fault = r.pick(&FAULTS);
            Case { instance: faulty(r, &source.table, &source.instance, fault), intended: Intended::Unknown, ..case }
        }
    }
}

pub struct WideRun {
    pub query: Vec<u8>,
    pub table: Vec<u8>,
    pub instances: Vec<Vec<u8>>,
    /// Of each instance; none where it conforms.
    pub faults: Vec<Option<Fault>>,
}

/// Two to twelve instances, of which the query is made for the first; one in three is at fault.
pub fn run(r: &mut Random) -> WideRun {
    let source = source(r);
    let mut out = WideRun { query: query(r, &source), table: source.table.write(), instances: vec![], faults: vec![] };
    for n in 0..2 + r.below(11) {
        let instance = if n == 0 { source.instance.clone() } else { related(r, &source) };
        let fault = r.chance(3).then(|| r.pick(&FAULTS));
        out.instances.push(match fault {
            Some(fault) => faulty(r, &source.table, &instance, fault),
            None => instance,
        });
        out.faults.push(fault);
    }
    out
}

fn source(r: &mut Random) -> Source {
    // Three are the fewest that have one in the middle.
    let width = if r.chance(2) { 128 } else { 3 + r.below(126) };
    let kinds = kinds(r, width);
    let table = table::filled(r, &kinds, 0);
    let instance = instance(r, &table, |r, n| record(r, kinds[n]));
    Source { often: OFTEN.to_vec(), ..Source::with_instance(table, instance) }
}

fn query(r: &mut Random, source: &Source) -> Vec<u8> {
    comparison::query_of(r, source, |r| 2 + r.below(7))
}

/// Half of them of two types or arrays of these, so that a property has others to stand beside.
fn kinds(r: &mut Random, width: usize) -> Vec<u16> {
    let few = [r.pick(&TYPES), r.pick(&TYPES)];
    (0..width).map(|_| if r.chance(2) { table::kind(r) } else { r.pick(&few) | r.pick(&[0, ARRAY]) }).collect()
}

/// A record as in other instances, or a text of some hundred characters.
fn record(r: &mut Random, kind: u16) -> Vec<u8> {
    match kind == STRING && r.chance(3) {
        true => write(STRING, value::text(r).repeat(r.below(40)).as_bytes()),
        false => value::record(r, kind),
    }
}

/// An instance that conforms, of these records and perhaps further ones.
fn instance(r: &mut Random, table: &Table, record: impl Fn(&mut Random, usize) -> Vec<u8>) -> Vec<u8> {
    loop {
        let mut out: Vec<u8> = (0..table.properties.len()).flat_map(|n| record(r, n)).collect();
        if r.chance(3) {
            out.extend(value::subclass(r));
        }
        if out.len() <= LENGTH_OF_INSTANCE {
            return out;
        }
    }
}

/// An instance that holds about half of the source's records, most of them elsewhere.
fn related(r: &mut Random, source: &Source) -> Vec<u8> {
    let (own, _) = read(&source.instance);
    instance(r, &source.table, |r, n| match r.chance(2) {
        true => write(own[n].kind, own[n].body),
        false => record(r, source.kind(n)),
    })
}

fn faulty(r: &mut Random, table: &Table, instance: &[u8], fault: Fault) -> Vec<u8> {
    loop {
        let out = with_fault(r, table, instance, fault);
        if out.len() <= LENGTH_OF_INSTANCE && check_instance(table, &out).is_some() {
            return out;
        }
    }
}

fn with_fault(r: &mut Random, table: &Table, instance: &[u8], fault: Fault) -> Vec<u8> {
    let last = table.properties.len() - 1;
    let number = match fault {
        Fault::First => 0,
        Fault::Last => last,
        Fault::Middle => 1 + r.below(last - 1),
        Fault::TooLong => r.below(last + 1),
        Fault::Behind => return [instance, r.pick(&[&[0][..], &[0, 0, 0], &[1, 0, 0, 0]])].concat(),
        Fault::CutShort => return instance[..1 + r.below(instance.len() - 1)].to_vec(),
        Fault::Empty => return Vec::new(),
    };
    let (before, own, after) = spoil::parted(instance, number);
    let wrong = match fault {
        Fault::TooLong => lengthened(r, own),
        _ => spoil::wrong_record(r, table.properties[number].kind),
    };
    [before, wrong, after].concat()
}

/// The record with a larger number for its length.
fn lengthened(r: &mut Random, record: Vec<u8>) -> Vec<u8> {
    let length = u16::from_le_bytes([record[0], record[1]]).saturating_add(r.pick(&[1, 4, u16::MAX]));
    [&length.to_le_bytes(), &record[2..]].concat()
}
