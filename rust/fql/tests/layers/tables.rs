//! Tables beside a reader over the standard library's slices: numbers 2 and 3 with their places, and the property that
//! each name of a good table finds.

use fql::record::{write, ARRAY, CLASS, NULL};
use fql::types::{
    BOOLEAN, CHAR16, DATETIME, OCTETS, REAL32, REAL64, REFERENCE, SINT16, SINT32, SINT64, SINT8, STRING, UINT16,
    UINT32, UINT64, UINT8,
};
use reference::random::{for_each_seed, Random};
use reference::record::{is_reserved, Property, Table};

use crate::ask::{mark_of, marks, refusal};
use crate::seen::Seen;
use crate::widths::bytes_of;

const TYPES: [u16; 16] = [
    BOOLEAN, REAL32, REAL64, STRING, CHAR16, OCTETS, DATETIME, REFERENCE, UINT8, UINT16, UINT32, UINT64, SINT8, SINT16,
    SINT32, SINT64,
];

pub fn table_of(class: &str, properties: &[(String, u16)]) -> Vec<u8> {
    properties
        .iter()
        .fold(write(CLASS, class.as_bytes()), |out, (name, kind)| [out, write(*kind, name.as_bytes())].concat())
}

pub fn random_table(r: &mut Random) -> Vec<u8> {
    let mut properties = Vec::new();
    for _ in 0..r.below(6) {
        let n = 1 + r.below(4);
        let name: String = (0..n).map(|_| char::from(r.pick(b"aAbB_z09"))).collect();
        let name = if r.chance(8) { "null".to_owned() } else { format!("x{name}") };
        let array = if r.chance(3) { ARRAY } else { 0 };
        properties.push((name, r.pick(&TYPES) | array));
    }
    table_of(r.pick(&["P", "Class_1", "Or", "_"]), &properties)
}

/// A record of this kind that isn't NULL.
pub fn some_value(kind: u16) -> Vec<u8> {
    let body: &[u8] = match kind & !ARRAY {
        BOOLEAN => &[1],
        REAL32 => &[0; 4],
        REAL64 => &[0; 8],
        CHAR16 => &[0; 2],
        DATETIME => b"00000101000000.000000+000",
        other => &[0; 8][..bytes_of(other).unwrap_or(0)],
    };
    match kind & ARRAY {
        0 => write(kind, body),
        _ => write(kind, &write(kind & !ARRAY, body)),
    }
}

/// A query whose answer is whether a property is NULL, or its first element is or isn't there; the names are in another
/// case.
pub fn asks_for_null(table: &Table, property: &Property) -> String {
    let name = String::from_utf8(property.name.to_ascii_uppercase()).unwrap();
    let class = String::from_utf8(table.class.to_ascii_lowercase()).unwrap();
    let path = if is_reserved(&property.name) { format!("{class}.{name}") } else { name };
    let index = if property.kind & ARRAY == 0 { "" } else { "[0]" };
    format!("{path}{index} = NULL")
}

/// Asks each name for NULL on instances of which each has one value: only the property's own is no
/// NULL. Were it of another kind, the instance would not conform.
fn hold_properties(bytes: &[u8], table: &Table) {
    let holding = |one: usize| -> Vec<u8> {
        let record = |n: usize| if n == one { some_value(table.properties[n].kind) } else { write(NULL, &[]) };
        (0..table.properties.len()).flat_map(record).collect()
    };
    let instances: Vec<Vec<u8>> = (0..table.properties.len()).map(holding).collect();
    for (number, property) in table.properties.iter().enumerate() {
        let query = asks_for_null(table, property);
        let expected: Vec<u8> = (0..instances.len()).map(|n| mark_of(n != number)).collect();
        assert_eq!(marks(&query, bytes, &instances), expected, "{query} with {}", bytes.escape_ascii());
    }
}

fn hold(bytes: &[u8], seen: &mut Seen) {
    let read = Table::read(bytes);
    let found = refusal(b"nowhere = NULL", bytes);
    assert_eq!(found, read.as_ref().err().copied().or(Some((20, 0))), "{}", bytes.escape_ascii());
    seen.add(match read {
        Ok(table) => {
            hold_properties(bytes, &table);
            "good"
        }
        Err((2, _)) => "2",
        Err(_) => "3",
    });
}

fn tables(r: &mut Random) {
    let mut seen = Seen::default();
    for _ in 0..60_000 {
        let table = random_table(r);
        hold(&table, &mut seen);
        hold(&r.damage(&table), &mut seen);
    }
    seen.assert_at_least(&[("good", 40_000), ("2", 40_000), ("3", 3_000)]);
}

#[test]
fn random_and_damaged_tables() {
    for_each_seed(tables);
}

/// The kinds that a property may have: of 01 and of 02, Q-2.
const ACCEPTED: [u16; 32] = [
    0x0001, 0x0004, 0x0005, 0x0006, 0x0007, 0x0008, 0x0009, 0x000a, // each type but the integers
    0x0011, 0x0012, 0x0014, 0x0018, 0x0021, 0x0022, 0x0024, 0x0028, // the integers
    0x0101, 0x0104, 0x0105, 0x0106, 0x0107, 0x0108, 0x0109, 0x010a, // arrays of these
    0x0111, 0x0112, 0x0114, 0x0118, 0x0121, 0x0122, 0x0124, 0x0128,
];

/// Every kind there could be, between two properties: 2 at its record, which starts at 15, but for those above.
#[test]
fn every_kind() {
    let mut seen = Seen::default();
    for kind in 0..=u16::MAX {
        let property = |name: &str, kind: u16| (name.to_owned(), kind);
        let table = table_of("C", &[property("before", BOOLEAN), property("a", kind), property("after", BOOLEAN)]);
        let expected = (!ACCEPTED.contains(&kind)).then_some((2, 15));
        assert_eq!(refusal(b"before = TRUE", &table), expected, "{kind:#06x}");
        hold(&table, &mut seen);
    }
    seen.assert_at_least(&[("good", 32), ("2", 65_504)]);
}
