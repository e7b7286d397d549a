//! Reading at its slowest: tables with many names that are nearly alike, queries of long tokens, and instances whose
//! conformance takes long under the shortest query.

use super::input::{filled, table, Input, LENGTH_OF_QUERY};
use super::texts::{cycled, of_three_bytes, of_two_bytes, LONGEST};
use reference::kind::{ARRAY, BOOLEAN, DATETIME, OCTETS, REAL64, STRING, UINT64};
use reference::record::write;

pub fn inputs() -> Vec<Input> {
    [names(), tokens(), patterns(), conformance()].into_iter().flatten().collect()
}

/// 128 properties whose names differ at the end; 59 bytes are the most that fit a table.
fn names() -> Vec<Input> {
    let names: Vec<String> = (0..128).map(|n| format!("{}{n:03}", "x".repeat(56))).collect();
    let properties: Vec<(u16, &str)> = names.iter().map(|name| (UINT64, name.as_str())).collect();
    let instance = write(UINT64, &[7; 8]).repeat(128);
    let last = &names[127];
    let one = format!("{last} = 7");
    vec![
        Input::new("the last of 128 names, one comparison", one, table(&properties), instance.clone()),
        Input::new(
            "the last of 128 names, two in each",
            filled(&format!("{last}={last}"), "AND"),
            table(&properties),
            instance,
        ),
    ]
}

/// A comparison of `A`, which is NULL, with a literal that fills the query.
fn long_literal(name: &str, kind: u16, literal: impl Fn(usize) -> String) -> Input {
    let query = format!("A<>{}", literal(LENGTH_OF_QUERY - 3));
    Input::new(name, query, table(&[(kind, "A")]), write(0, b""))
}

fn tokens() -> Vec<Input> {
    let quoted = |unit: &str, bytes: usize| format!("'{}'", unit.repeat((bytes - 2) / unit.len()));
    let of_one = |name: &str, kind: u16, comparison: &str| {
        Input::new(name, filled(comparison, "AND"), table(&[(kind, "A")]), write(0, b""))
    };
    vec![
        long_literal("a string of 4,000 bytes", STRING, |n| quoted("x", n)),
        long_literal("a string of 2-byte characters", STRING, |n| quoted("é", n)),
        long_literal("a string of 3-byte characters", STRING, |n| quoted("一", n)),
        long_literal("a string of escapes", STRING, |n| quoted("\\u00e9", n)),
        long_literal("a string of short escapes", STRING, |n| quoted("\\n", n)),
        long_literal("an integer of 4,000 digits", UINT64, |n| format!("{}7", "0".repeat(n - 1))),
        long_literal("a binary integer of 4,000 digits", UINT64, |n| format!("{}1b", "0".repeat(n - 2))),
        long_literal("a hexadecimal integer of 4,000 digits", UINT64, |n| format!("0x{}", "0".repeat((n - 2) / 2 * 2))),
        long_literal("octets of 4,000 digits", OCTETS, |n| format!("0x{}", "0".repeat((n - 2) / 2 * 2))),
        long_literal("a real of 4,000 digits", REAL64, |n| format!("{}.5", "0".repeat(n - 2))),
        long_literal("4,000 spaces", UINT64, |n| format!("{}7", " ".repeat(n - 1))),
        of_one("64 strings", STRING, &format!("A<>'{}'", "x".repeat(53))),
        of_one("64 datetimes", DATETIME, "A<>'20051003112233.000000+000'"),
        of_one("64 datetimes with unknown digits", DATETIME, "A<>'200502********.******+000'"),
        of_one(
            "64 datetimes of escapes",
            DATETIME,
            &format!("A<>'{}'", "\\u002a".repeat(14) + "." + &"\\u002a".repeat(6) + "+000"),
        ),
        of_one("64 reals", REAL64, "A<>-1234567890.12345e-17"),
        of_one("64 booleans", BOOLEAN, "A<>FALSE"),
    ]
}

/// The check of patterns, on a text that is NULL.
fn patterns() -> Vec<Input> {
    let of = |name: &str, pattern: &str| {
        Input::new(name, filled(&format!("A NOT LIKE'{pattern}'"), "AND"), table(&[(STRING, "A")]), write(0, b""))
    };
    vec![
        of("patterns of 255 bars", &"|".repeat(255)),
        of("patterns of 8 groups around 240 bars", &format!("{}{}{}", "(".repeat(8), "|".repeat(240), ")".repeat(8))),
        of("patterns of 60 symbols", &"x?".repeat(60)),
        of("patterns of 60 symbols, escapes", &"\\\\*".repeat(60)),
        of("patterns of groups", &format!("{}{}", "((((((((x)*)*)*)*)*)*)*)*".repeat(9), "()".repeat(15))),
        of("patterns of a set of ranges", &format!("[{}]", "a-b".repeat(84))),
    ]
}

/// Under a query that names a boolean.
fn conforming(name: &str, properties: &[(u16, &str)], records: Vec<u8>) -> Input {
    let all = [&[(BOOLEAN, "On")], properties].concat();
    Input::new(name, "On=TRUE".into(), table(&all), [write(BOOLEAN, &[1]), records].concat())
}

fn conformance() -> Vec<Input> {
    let text = |name: &str, text: String| conforming(name, &[(STRING, "A")], write(STRING, text.as_bytes()));
    let eight: Vec<(u16, &str)> =
        ["A", "B", "C", "D", "E", "F", "G", "H"].map(|name| (ARRAY | DATETIME, name)).to_vec();
    let datetimes = |text: &[u8]| write(ARRAY | DATETIME, &write(DATETIME, text).repeat(256)).repeat(8);
    let bytes = LONGEST - 5;
    vec![
        text("conformance of a long ASCII text", "x".repeat(bytes)),
        text("conformance of 2-byte characters", cycled(&of_two_bytes(), bytes, 'x')),
        text("conformance of 3-byte characters", cycled(&of_three_bytes(), bytes, 'x')),
        text("conformance of 1- and 2-byte characters", "éx".repeat(bytes / 3)),
        conforming("conformance of 2,048 datetimes", &eight, datetimes(b"20051003112233.000000+000")),
        conforming("conformance of 2,048 unknown digits", &eight, datetimes(b"200502********.******+060")),
        conforming("16,380 subclass records", &[], write(0, b"").repeat(16_380)),
        conforming("32,000 subclass bytes", &[], write(7, b"x").repeat(13_105)),
    ]
}
