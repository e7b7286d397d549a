//! Random and damaged query texts beside an independent tokenizer and parser: 1, 10, 11 and 12 with their places, what
//! comes after them, and the answers of those that are accepted.

use std::collections::BTreeMap;

use fql::record::ARRAY;
use fql::types::{BOOLEAN, CHAR16, DATETIME, REAL64, REFERENCE, SINT64, STRING, UINT64};
use reference::examples::setting::{
    array, char16, datetime, real64, reference as key, sint64, text, truth, uint64, Setting,
};
use reference::queries::{damaged, well_formed};
use reference::random::{for_each_seed, Random};

use crate::common::agree;

/// A class that has most of the names in these queries.
fn setting() -> Setting {
    Setting::new(
        "P",
        &[
            ("U", UINT64, uint64(5)),
            ("Us", ARRAY | UINT64, array(UINT64, &[uint64(5), uint64(0)])),
            ("S", STRING, text("x")),
            ("Name", STRING, text("\u{41bc}")),
            ("Temp_2", SINT64, sint64(-5)),
            ("_x1", DATETIME, datetime("20051003112233.000000+000")),
            ("Dev", ARRAY | UINT64, array(UINT64, &[])),
            ("notany", CHAR16, char16(0xffff)),
            ("e5", REAL64, real64(0.5)),
            ("B", BOOLEAN, truth(true)),
            ("P", REFERENCE, key("x")),
        ],
    )
}

fn queries(r: &mut Random) {
    let (table, instance) = (setting().table(), setting().instance());
    let mut counts: BTreeMap<u64, usize> = BTreeMap::new();
    let mut count = |query: &[u8]| {
        let found = agree(query, &table, &instance);
        *counts.entry(found.map_or_else(|refusal| refusal.number, |_| 0)).or_default() += 1;
    };
    for _ in 0..100_000 {
        let query = well_formed(r);
        count(query.as_bytes());
        count(&damaged(r, &query));
    }
    println!("by number, 0 for an answer: {counts:?}");
    let least = [(0, 800), (10, 5_000), (11, 50_000), (12, 2_000), (20, 30_000), (21, 20_000), (22, 30_000), (23, 400)];
    for (number, least) in least {
        let found = counts.get(&number).copied().unwrap_or(0);
        assert!(found >= least, "only {found} texts with {number}");
    }
}

#[test]
fn random_and_damaged_queries() {
    for_each_seed(queries);
}
