//! Comparisons at their slowest: long texts and arrays that differ at the end or not at all, and late places.

use super::input::{filled, table, Input};
use super::texts::{cycled, of_three_bytes, of_two_bytes, LONGEST};
use reference::kind::{ARRAY, CHAR16, DATETIME, NULL, OCTETS, REAL64, STRING, UINT64, UINT8};
use reference::record::write;

pub fn inputs() -> Vec<Input> {
    [texts(), arrays(), datetimes(), elements(), indices()].into_iter().flatten().collect()
}

/// Two strings, each in half of the instance.
fn two_texts(name: &str, first: &str, second: &str, comparison: &str) -> Input {
    let instance = [write(STRING, first.as_bytes()), write(STRING, second.as_bytes())].concat();
    Input::new(name, filled(comparison, "AND"), table(&[(STRING, "A"), (STRING, "B")]), instance)
}

fn texts() -> Vec<Input> {
    const HALF: usize = 32_763;
    let ascii = "x".repeat(HALF);
    let (two, three) = (of_two_bytes(), of_three_bytes());
    let literal = "x".repeat(4_000);
    vec![
        two_texts("two equal texts of 32,763 bytes", &ascii, &ascii, "A = B"),
        two_texts(
            "two texts of 2-byte characters, other ends",
            &cycled(&two, HALF, 'a'),
            &cycled(&two, HALF, 'b'),
            "A <> B",
        ),
        two_texts(
            "two texts of 3-byte characters, other ends",
            &cycled(&three, HALF, 'a'),
            &cycled(&three, HALF, 'b'),
            "A <> B",
        ),
        two_texts("a text beside a literal of 4,000 bytes", &literal, "", &format!("A = '{literal}'")),
        two_texts(
            "a text beside a literal of escapes",
            &"é".repeat(670),
            "",
            &format!("A = '{}'", "\\u00e9".repeat(670)),
        ),
    ]
}

/// Two arrays alike, whose elements are compared from the first to the last.
fn two_arrays(name: &str, kind: u16, element: &[u8]) -> Input {
    let array = write(ARRAY | kind, &write(kind, element).repeat(256));
    Input::new(name, filled("A = B", "AND"), table(&[(ARRAY | kind, "A"), (ARRAY | kind, "B")]), array.repeat(2))
}

fn arrays() -> Vec<Input> {
    let null = write(ARRAY | UINT8, &write(NULL, b"").repeat(256));
    vec![
        two_arrays("two arrays of 256 integers", UINT64, &[0xff; 8]),
        two_arrays("two arrays of 256 reals", REAL64, &[0x11; 8]),
        two_arrays("two arrays of 256 texts of 120 bytes", STRING, &[b'x'; 120]),
        two_arrays("two arrays of 256 texts of 60 2-byte characters", STRING, "é".repeat(60).as_bytes()),
        two_arrays("two arrays of 256 octets of 120 bytes", OCTETS, &[0xff; 120]),
        two_arrays("two arrays of 256 char16", CHAR16, &[0xe9, 0]),
        Input::new(
            "two arrays of 256 NULLs",
            filled("A = B", "AND"),
            table(&[(ARRAY | UINT8, "A"), (ARRAY | UINT8, "B")]),
            null.repeat(2),
        ),
        literals_of_arrays(),
    ]
}

/// 32 elements are the most of an array literal.
fn literals_of_arrays() -> Input {
    let literal = format!("{{{}}}", ["7"; 32].join(","));
    let array = write(ARRAY | UINT64, &write(UINT64, &7u64.to_le_bytes()).repeat(32));
    Input::new(
        "array literals of 32 elements",
        filled(&format!("A = {literal}"), "AND"),
        table(&[(ARRAY | UINT64, "A")]),
        array,
    )
}

fn datetimes() -> Vec<Input> {
    let timestamp = b"20051003112233.000000+000";
    let starred = b"200502********.******+060";
    let array = |text| write(ARRAY | DATETIME, &write(DATETIME, text).repeat(256));
    let eight = |text| array(text).repeat(8);
    let kinds: Vec<(u16, &str)> =
        "ABCDEFGH".split("").filter(|name| !name.is_empty()).map(|name| (ARRAY | DATETIME, name)).collect();
    let every = filled("EVERY A < '20991003112233.000000+000'", "AND");
    let every_starred = filled("EVERY A < '209910********.******+000'", "AND");
    vec![
        Input::new("arrays of 256 datetimes, 8 of them", filled("A = B", "AND"), table(&kinds), eight(timestamp)),
        Input::new(
            "arrays of 256 datetimes with unknown digits",
            filled("A = B", "AND"),
            table(&kinds),
            eight(starred),
        ),
        Input::new("EVERY of 256 datetimes", every, table(&kinds), eight(timestamp)),
        Input::new("EVERY of 256 datetimes with unknown digits", every_starred, table(&kinds), eight(starred)),
    ]
}

/// EVERY and ANY that look at each of 256 elements.
fn elements() -> Vec<Input> {
    let strings = |text: &str| write(ARRAY | STRING, &write(STRING, text.as_bytes()).repeat(256));
    let every = |text: &str| filled(&format!("EVERY A = '{text}'"), "AND");
    let of_strings = table(&[(ARRAY | STRING, "A")]);
    let (long, two) = ("x".repeat(250), "é".repeat(125));
    let numbers = write(ARRAY | UINT64, &write(UINT64, &7u64.to_le_bytes()).repeat(256));
    let ascii = write(STRING, "x".repeat(240).as_bytes());
    let beside = [write(ARRAY | STRING, &ascii.repeat(256)), ascii].concat();
    vec![
        Input::new("EVERY of 256 texts of 250 bytes", every(&long), of_strings.clone(), strings(&long)),
        Input::new("EVERY of 256 texts of 125 2-byte characters", every(&two), of_strings.clone(), strings(&two)),
        Input::new(
            "EVERY of 256 texts beside a property",
            filled("EVERY A = B", "AND"),
            table(&[(ARRAY | STRING, "A"), (STRING, "B")]),
            beside,
        ),
        Input::new("ANY of 256 short texts", filled("ANY A = 'FAN_100'", "OR"), of_strings.clone(), strings("FAN_101")),
        Input::new(
            "ANY of 256 short texts beside escapes",
            filled("ANY A = '\\u00e9\\u00e9'", "OR"),
            of_strings,
            strings("éa"),
        ),
        Input::new("ANY of 256 integers", filled("ANY A = 8", "OR"), table(&[(ARRAY | UINT64, "A")]), numbers),
    ]
}

fn indices() -> Vec<Input> {
    let numbers = write(ARRAY | UINT64, &write(UINT64, &7u64.to_le_bytes()).repeat(256));
    let two = table(&[(ARRAY | UINT64, "A"), (ARRAY | UINT64, "B")]);
    let short = write(ARRAY | UINT64, b"").repeat(2);
    let late: Vec<(u16, &str)> = vec![(STRING, "A"), (STRING, "B")];
    let text = write(STRING, "é".repeat(LONGEST / 2 - 4).as_bytes());
    vec![
        Input::new("A[65535] = B[65535], empty arrays", filled("A[65535] = B[65535]", "AND"), two.clone(), short),
        Input::new(
            "A[65535] = B[65535], 256 elements",
            filled("A[65535] = B[65535]", "AND"),
            two.clone(),
            numbers.repeat(2),
        ),
        Input::new("A[255] = B[255]", filled("A[255] = B[255]", "AND"), two, numbers.repeat(2)),
        Input::new(
            "a short text behind a long one",
            filled("B = ''", "AND"),
            table(&late),
            [text, write(STRING, b"")].concat(),
        ),
    ]
}
