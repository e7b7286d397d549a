//! The table: refusals 2 and 3, and its properties by name, which are found by a hash.

use crate::bytes::half;
use crate::kind::{Type, CLASS};
use crate::name::{hash, is_name, reserved, same};
use crate::refusal::{refuse, Refusal};
use std::ops::Range;

pub const PROPERTIES: usize = 128;
const LONGEST: usize = 8_192;
const FREE: u8 = u8::MAX;

pub struct Table<'a> {
    bytes: &'a [u8],
    class: Range<usize>,
    pub kinds: Vec<u16>,
    /// Where each name stands, and its hash.
    names: Vec<(Range<usize>, u64)>,
    /// The number of a property at its name's hash or behind it; twice as many as there are properties.
    slots: [u8; 2 * PROPERTIES],
}

/// The kind and the body of the whole record that starts here.
fn record(bytes: &[u8], at: usize) -> Option<(u16, Range<usize>)> {
    let header = half(bytes.get(at..at + 4)?, 0);
    let body = at + 4..at + 4 + (header & 0xffff) as usize;
    (body.end <= bytes.len()).then_some(((header >> 16) as u16, body))
}

impl<'a> Table<'a> {
    pub fn read(bytes: &'a [u8]) -> Result<Table<'a>, Refusal> {
        let class = match record(bytes, 0) {
            _ if bytes.len() > LONGEST => return refuse(2, 0),
            Some((CLASS, name)) if is_name(&bytes[name.clone()]) && reserved(&bytes[name.clone()]).is_none() => name,
            _ => return refuse(2, 0),
        };
        let mut at = class.end;
        let (kinds, names) = (Vec::with_capacity(PROPERTIES), Vec::with_capacity(PROPERTIES));
        let mut table = Table { bytes, class, kinds, names, slots: [FREE; 2 * PROPERTIES] };
        while at < bytes.len() {
            let Some((kind, name)) = record(bytes, at) else { return refuse(2, at) };
            if table.kinds.len() == PROPERTIES || Type::of(kind).is_none() || !is_name(&bytes[name.clone()]) {
                return refuse(2, at);
            }
            let hash = hash(&bytes[name.clone()]);
            let slot = table.slot(&bytes[name.clone()], hash);
            if table.slots[slot] != FREE {
                return refuse(3, at);
            }
            table.slots[slot] = table.kinds.len() as u8;
            table.kinds.push(kind);
            at = name.end;
            table.names.push((name, hash));
        }
        Ok(table)
    }

    /// The slot with this name's property, or the free one where it would stand.
    fn slot(&self, name: &[u8], hash: u64) -> usize {
        let is_other = |number: u8| {
            let (own, own_hash) = &self.names[usize::from(number)];
            *own_hash != hash || !same(&self.bytes[own.clone()], name)
        };
        let mut slot = hash as usize % self.slots.len();
        while self.slots[slot] != FREE && is_other(self.slots[slot]) {
            slot = (slot + 1) % self.slots.len();
        }
        slot
    }

    /// The number of the property with this name.
    pub fn find(&self, name: &[u8]) -> Option<u8> {
        Some(self.slots[self.slot(name, hash(name))]).filter(|&number| number != FREE)
    }

    pub fn is_class(&self, name: &[u8]) -> bool {
        same(&self.bytes[self.class.clone()], name)
    }
}
