//! Two runs for one query (02, Q-3): at each place two conforming instances that differ in what the query doesn't name,
//! or two instances that don't conform.

use super::{change_all_but, origin, records, Origin};
use crate::cases::value;
use crate::kind::INSTANCE;
use crate::random::Random;
use crate::record::{check_instance, write, Table, LENGTH_OF_INSTANCE};

pub struct RunPair {
    pub query: Vec<u8>,
    pub table: Vec<u8>,
    pub first: Vec<u8>,
    pub second: Vec<u8>,
    /// Of each instance, whether it conforms, in both runs.
    pub conforming: Vec<bool>,
}

pub fn pair(r: &mut Random) -> RunPair {
    let origin = origin(r);
    let mut out = RunPair {
        query: origin.query.clone(),
        table: origin.source.table.write(),
        first: Vec::new(),
        second: Vec::new(),
        conforming: Vec::new(),
    };
    for _ in 0..r.below(7) {
        let conforms = !r.chance(5);
        let [first, second] = instances(r, &origin).map(|instance| match conforms {
            true => instance,
            false => not_conforming(r, &origin.source.table, &instance),
        });
        out.first.extend(write(INSTANCE, &first));
        out.second.extend(write(INSTANCE, &second));
        out.conforming.push(conforms);
    }
    out
}

fn instances(r: &mut Random, origin: &Origin) -> [Vec<u8>; 2] {
    let Origin { source, named, .. } = origin;
    loop {
        let first = if r.chance(3) { source.instance.clone() } else { value::instance(r, &source.table) };
        let mut changed = records(&first);
        change_all_but(r, &source.table, named, &mut changed);
        let second = changed.concat();
        if second.len() <= LENGTH_OF_INSTANCE {
            return [first, second];
        }
    }
}

fn not_conforming(r: &mut Random, table: &Table, instance: &[u8]) -> Vec<u8> {
    loop {
        let damaged = r.damage(instance);
        if damaged.len() <= LENGTH_OF_INSTANCE && check_instance(table, &damaged).is_some() {
            return damaged;
        }
    }
}
