//! The eight integer types: their words, their ranges and the bodies of their values.

use fql::record::{ARRAY, CLASS, INSTANCE, NULL};
use fql::types::{SINT16, SINT32, SINT64, SINT8, UINT16, UINT32, UINT64, UINT8};
use fqlrec::{read, show, Files};
use reference::random::{for_each_seed, Random};
use reference::record::write;

struct Integer {
    word: &'static str,
    kind: u16,
    lowest: i128,
    highest: i128,
    body: fn(i128) -> Vec<u8>,
}

macro_rules! integer {
    ($word:literal, $kind:ident, $native:ty) => {
        Integer {
            word: $word,
            kind: $kind,
            lowest: <$native>::MIN as i128,
            highest: <$native>::MAX as i128,
            body: |n| <$native>::try_from(n).unwrap().to_le_bytes().to_vec(),
        }
    };
}

const INTEGERS: [Integer; 8] = [
    integer!("uint8", UINT8, u8),
    integer!("uint16", UINT16, u16),
    integer!("uint32", UINT32, u32),
    integer!("uint64", UINT64, u64),
    integer!("sint8", SINT8, i8),
    integer!("sint16", SINT16, i16),
    integer!("sint32", SINT32, i32),
    integer!("sint64", SINT64, i64),
];

impl Integer {
    /// A class with a scalar and an array of this type.
    fn table(&self) -> Vec<u8> {
        [write(CLASS, b"P"), write(self.kind, b"X"), write(self.kind | ARRAY, b"Xs")].concat()
    }

    /// The number as a scalar and between NULLs as an element: text and bytes stand for one another.
    fn round_trip(&self, n: i128) {
        let word = self.word;
        let text = format!(
            "class P\n    X   {word}\n    Xs  {word}[]\ninstance\n    X  = {n}\n    Xs = {{NULL, {n}, NULL, {n}}}\n"
        );
        let (number, null) = (write(self.kind, &(self.body)(n)), write(NULL, &[]));
        let elements = [&null[..], &number, &null, &number].concat();
        let instance = [&number[..], &write(self.kind | ARRAY, &elements)].concat();
        let files = Files { table: self.table(), run: write(INSTANCE, &instance) };
        assert_eq!(read(text.as_bytes()).as_ref(), Ok(&files), "{text}");
        assert_eq!(show(&files), text);
    }

    /// What is said of a scalar with this text, and of an element.
    fn problems(&self, number: &str) -> [String; 2] {
        let problem = |line: &str| {
            let text = format!("class P\n X {word}\n Xs {word}[]\ninstance\n {line}\n", word = self.word);
            read(text.as_bytes()).expect_err(&text).to_string()
        };
        [problem(&format!("X = {number}")), problem(&format!("X = NULL\n Xs = {{{number}}}"))]
    }

    /// A problem of the scalar and of the element that names this range.
    fn expect_range(&self, number: &str, range: &str) {
        let what = format!("a whole number from {range} is needed here");
        assert_eq!(self.problems(number), [format!("5:6: {what}"), format!("6:8: {what}")], "{} {number}", self.word);
    }
}

#[test]
fn at_the_ends_and_in_the_middle() {
    for integer in INTEGERS {
        for n in [integer.lowest, integer.lowest + 1, 0, 1, 100, integer.highest - 1, integer.highest] {
            integer.round_trip(n);
        }
        if integer.lowest < 0 {
            integer.round_trip(-1);
        }
    }
}

fn numbers(r: &mut Random) {
    for integer in INTEGERS {
        for _ in 0..500 {
            let any = i128::from(u64::from_le_bytes([(); 8].map(|()| r.byte())));
            let count = integer.highest - integer.lowest + 1;
            integer.round_trip(integer.lowest + any % count);
        }
    }
}

#[test]
fn at_random() {
    for_each_seed(numbers);
}

#[test]
fn outside_of_the_range() {
    let ranges = [
        "0 to 255",
        "0 to 65535",
        "0 to 4294967295",
        "0 to 18446744073709551615",
        "-128 to 127",
        "-32768 to 32767",
        "-2147483648 to 2147483647",
        "-9223372036854775808 to 9223372036854775807",
    ];
    for (integer, range) in INTEGERS.iter().zip(ranges) {
        integer.expect_range(&(integer.lowest - 1).to_string(), range);
        integer.expect_range(&(integer.highest + 1).to_string(), range);
        for number in ["x", "1.0", "5x", "0x05", "-", "1e2", "9".repeat(60).as_str(), "TRUE"] {
            integer.expect_range(number, range);
        }
    }
}

/// A word for integers names sign and width.
#[test]
fn words_that_are_none() {
    let words =
        "boolean, uint8, uint16, uint32, uint64, sint8, sint16, sint32, sint64, real32, real64, string, char16, \
                 octets, datetime, reference";
    for word in ["unsigned", "signed", "unsigned[]", "signed[]", "uint", "uint128", "int8", "UINT8"] {
        let problem = read(format!("class P\n    X {word}\n").as_bytes()).unwrap_err();
        assert_eq!(problem.to_string(), format!("2:7: a type is needed here: {words}"));
    }
}

/// A record of a kind that no type has is shown by its bytes, in the table and in an instance.
#[test]
fn kinds_that_are_none() {
    for kind in [2, 3, 0x0010, 0x0013, 0x0019, 0x001F, 0x0020, 0x0023, 0x0031, 0x0081] {
        for kind in [kind, kind | ARRAY] {
            let text =
                format!("class P\n    record 0x{kind:04X} 58\ninstance\n    record 0x{kind:04X} 0500000000000000\n");
            let body = write(kind, &5u64.to_le_bytes());
            let files = Files { table: [write(CLASS, b"P"), write(kind, b"X")].concat(), run: write(INSTANCE, &body) };
            assert_eq!(show(&files), text);
            assert_eq!(read(text.as_bytes()), Ok(files));
        }
    }
}

/// A body of another length is shown by its bytes, and an array with such an element too.
#[test]
fn bodies_of_another_length() {
    for integer in INTEGERS {
        let width = (integer.body)(0).len();
        for length in (0..=9).filter(|&length| length != width) {
            let body = vec![0xFF; length];
            let record = write(integer.kind, &body);
            let array = write(integer.kind | ARRAY, &record);
            let files = Files { table: integer.table(), run: write(INSTANCE, &[record, array].concat()) };
            let text = show(&files);
            let by_bytes = |kind: u16| format!("    record 0x{kind:04X}");
            let lines: Vec<&str> = text.lines().skip(4).collect();
            assert!(lines[0].starts_with(&by_bytes(integer.kind)), "{text}");
            assert!(lines[1].starts_with(&by_bytes(integer.kind | ARRAY)), "{text}");
            assert_eq!(read(text.as_bytes()), Ok(files));
        }
    }
}
