//! The properties that a query names, on the examples written out by hand; and that random pairs of instances differ in
//! these or in the others, as they were made to.

use std::collections::BTreeSet;

use reference::cases::named::{
    changed_properties, run, with_named_changed, with_one_changed, with_other_kinds, with_unnamed_changed, Pair,
};
use reference::examples::named::{self, NamedExample};
use reference::mark::instances;
use reference::random::{for_each_seed, Random};
use reference::record::{check_instance, read, Table};
use reference::{check, named_properties};

fn hold(examples: Vec<NamedExample>, accepted: bool) {
    println!("{} examples", examples.len());
    for e in examples {
        let found: Vec<usize> = named_properties(&e.query, &e.table).into_iter().collect();
        assert_eq!(found, e.named, "{}", e.query.escape_ascii());
        assert_eq!(check(&e.query, &e.table).is_ok(), accepted, "{}", e.query.escape_ascii());
    }
}

#[test]
fn of_accepted_queries() {
    hold(named::of_accepted_queries(), true);
}

#[test]
fn of_refused_comparisons() {
    hold(named::of_refused_comparisons(), false);
}

#[test]
fn of_refused_texts_and_tables() {
    hold(named::of_refused_texts_and_tables(), false);
}

fn assert_conforming(table: &Table, instances: [&[u8]; 2]) {
    assert_eq!(instances.map(|instance| check_instance(table, instance)), [None; 2]);
}

/// The bytes after the records of the table's properties.
fn further<'a>(table: &Table, instance: &'a [u8]) -> &'a [u8] {
    let (records, _) = read(instance);
    records.get(table.properties.len()).map_or(&[], |record| &instance[record.start..])
}

/// The properties with two records, and whether the further records are the same.
fn differing(pair: &Pair) -> (BTreeSet<usize>, bool) {
    let table = Table::read(&pair.table).unwrap();
    let instances = [&pair.first[..], &pair.second];
    assert_conforming(&table, instances);
    let [first, second] = instances.map(|instance| further(&table, instance));
    (pair.changed(), first == second)
}

fn pairs(r: &mut Random) {
    for _ in 0..5_000 {
        let pair = with_unnamed_changed(r);
        let properties: BTreeSet<usize> = (0..Table::read(&pair.table).unwrap().properties.len()).collect();
        assert_eq!(differing(&pair).0, &properties - &named_properties(&pair.query, &pair.table));
        let pair = with_named_changed(r);
        assert_eq!(differing(&pair), (named_properties(&pair.query, &pair.table), true));
        let pair = with_one_changed(r);
        let (changed, same_further) = differing(&pair);
        assert!(changed.len() == 1 && same_further);
    }
}

#[test]
fn pairs_differ_in_what_they_were_made_to() {
    for_each_seed(pairs);
}

/// Only NULL takes the place of an empty body, and the reverse.
fn pairs_of_other_kinds(r: &mut Random) {
    for _ in 0..5_000 {
        let pair = with_other_kinds(r);
        let (changed, same_further) = differing(&pair);
        assert!(same_further && changed.is_subset(&named_properties(&pair.query, &pair.table)));
        let (first, second) = (read(&pair.first).0, read(&pair.second).0);
        for n in changed {
            assert!(first[n].body.is_empty() && second[n].body.is_empty());
        }
    }
}

#[test]
fn pairs_of_other_kinds_have_the_same_bodies() {
    for_each_seed(pairs_of_other_kinds);
}

fn pairs_of_runs(r: &mut Random) {
    for _ in 0..2_000 {
        let pair = run::pair(r);
        let table = Table::read(&pair.table).unwrap();
        let named = named_properties(&pair.query, &pair.table);
        let [first, second] = [&pair.first, &pair.second].map(|run| instances(run).unwrap());
        assert_eq!([first.len(), second.len()], [pair.conforming.len(); 2]);
        for (n, &conforming) in pair.conforming.iter().enumerate() {
            let both = [first[n], second[n]];
            if conforming {
                assert_conforming(&table, both);
                assert!(changed_properties(&pair.table, both).is_disjoint(&named));
            } else {
                assert!(both.iter().all(|instance| check_instance(&table, instance).is_some()));
            }
        }
    }
}

#[test]
fn pairs_of_runs_differ_in_what_is_not_named() {
    for_each_seed(pairs_of_runs);
}
