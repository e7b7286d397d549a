//! Instances beside a reader over the standard library's slices: 31 with its place, and where each record starts.

use fql::record::{write, ARRAY, NULL};
use fql::types::{BOOLEAN, CHAR16, DATETIME, OCTETS, REAL32, REAL64, REFERENCE, STRING};
use reference::random::{for_each_seed, Random};
use reference::record::{check_instance, read, Property, Record, Table};

use crate::seen::Seen;
use crate::tables::{asks_for_null, random_table};
use crate::widths::bytes_of;

fn body(r: &mut Random, kind: u16) -> Vec<u8> {
    let word = r.word().to_le_bytes();
    match kind {
        BOOLEAN => vec![word[0] % 2],
        REAL32 => word[..4].to_vec(),
        STRING | REFERENCE => r.pick(&["", "a", "FAN_2", "é𝄞\0"]).as_bytes().to_vec(),
        CHAR16 => word[..2].to_vec(),
        OCTETS => word[..r.below(9)].to_vec(),
        DATETIME => {
            let texts = [
                "20051003112233.000000+000",
                "00000229000000.000000-999",
                "99999999235959.999999:000",
                "200510031122**.******+000",
            ];
            // A day that isn't there, and a second that is unknown in part.
            let spoiled = ["19000229000000.000000+000", "2005100311223*.******+000"];
            let text = if r.chance(4) { r.pick(&spoiled) } else { r.pick(&texts) };
            text.as_bytes().to_vec()
        }
        REAL64 => word.to_vec(),
        // Sometimes of another length.
        other => word[..if r.chance(8) { r.below(9) } else { bytes_of(other).unwrap() }].to_vec(),
    }
}

fn record(r: &mut Random, kind: u16) -> Vec<u8> {
    if r.chance(5) {
        return write(NULL, &[]);
    }
    if kind & ARRAY == 0 {
        return write(kind, &body(r, kind));
    }
    let elements: Vec<u8> = (0..r.below(4)).flat_map(|_| record(r, kind & !ARRAY)).collect();
    write(kind, &elements)
}

/// Whether a property's record is NULL, or its array has no first element or a NULL there.
fn is_null(property: &Property, record: &Record) -> bool {
    match property.kind & ARRAY {
        0 => record.kind == NULL,
        _ => read(record.body).0.first().is_none_or(|element| element.kind == NULL),
    }
}

/// The answer for each property is from its own record, and there is none where the instance doesn't conform.
fn hold(bytes: &[u8], table: &Table, instance: &[u8], seen: &mut Seen) {
    let fault = check_instance(table, instance);
    let (records, _) = read(instance);
    for (number, property) in table.properties.iter().enumerate() {
        let query = asks_for_null(table, property);
        let expected = match fault {
            Some(fault) => Err(fault),
            None => Ok((is_null(property, &records[number]), 1)),
        };
        let found = fql::evaluate(query.as_bytes(), bytes, instance);
        let found = found.map(|answer| (answer.verdict == fql::Verdict::Included, answer.steps));
        let found = found.map_err(|refusal| (refusal.cause.number(), refusal.place));
        let shown = || format!("{query} on {} with {}", instance.escape_ascii(), bytes.escape_ascii());
        assert_eq!(found, expected, "{}", shown());
        if let Ok((included, _)) = found {
            seen.add(if included { "NULL" } else { "a value" });
        }
    }
    seen.add(if fault.is_none() { "conforming" } else { "not conforming" });
}

fn instances(r: &mut Random) {
    let mut seen = Seen::default();
    for _ in 0..80_000 {
        let bytes = random_table(r);
        let Ok(table) = Table::read(&bytes) else { continue };
        if table.properties.is_empty() {
            continue;
        }
        let mut instance: Vec<u8> = table.properties.iter().flat_map(|p| record(r, p.kind)).collect();
        if r.chance(4) {
            instance.extend(write(r.word() as u16, &[9; 5]));
        }
        hold(&bytes, &table, &instance, &mut seen);
        for _ in 0..3 {
            hold(&bytes, &table, &r.damage(&instance), &mut seen);
        }
    }
    seen.assert_at_least(&[("conforming", 40_000), ("not conforming", 100_000), ("NULL", 30_000), ("a value", 80_000)]);
}

#[test]
fn random_and_damaged_instances() {
    for_each_seed(instances);
}
