//! How the second instances of pairs differ from the first.

use std::collections::BTreeMap;

use super::{records, Pair};
use crate::kind::NULL;
use crate::record::{read, Record, Table};

#[derive(Clone, Debug, Default)]
pub struct Changes {
    /// Properties with another record, by kind.
    pub kinds: BTreeMap<u16, usize>,
    /// Of these, NULL before and NULL after.
    pub from_null: usize,
    pub to_null: usize,
    /// Of these, with a longer body, a shorter one, and another of the same length.
    pub longer: usize,
    pub shorter: usize,
    pub of_the_same_length: usize,
    /// Named properties whose record starts elsewhere.
    pub moved: usize,
    /// Pairs with instances of two lengths.
    pub of_two_lengths: usize,
    /// Pairs with more further records, with fewer, with as many others.
    pub more: usize,
    pub fewer: usize,
    pub others: usize,
}

impl Changes {
    pub fn add(&mut self, pair: &Pair) {
        let table = Table::read(&pair.table).unwrap();
        let (first, _) = read(&pair.first);
        let (second, _) = read(&pair.second);
        self.moved += pair.named.iter().filter(|&&n| first[n].start != second[n].start).count();
        for n in pair.changed() {
            *self.kinds.entry(table.properties[n].kind).or_default() += 1;
            self.add_record(&first[n], &second[n]);
        }
        self.of_two_lengths += usize::from(pair.first.len() != pair.second.len());
        let [before, after] = [&pair.first, &pair.second].map(|i| records(i).split_off(table.properties.len()));
        self.more += usize::from(before.len() < after.len());
        self.fewer += usize::from(before.len() > after.len());
        self.others += usize::from(before.len() == after.len() && before != after);
    }

    fn add_record(&mut self, before: &Record, after: &Record) {
        self.from_null += usize::from(before.kind == NULL);
        self.to_null += usize::from(after.kind == NULL);
        self.longer += usize::from(before.body.len() < after.body.len());
        self.shorter += usize::from(before.body.len() > after.body.len());
        self.of_the_same_length += usize::from(before.body.len() == after.body.len());
    }
}
