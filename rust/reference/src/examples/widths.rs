//! Integers of each width and sign (02, Q-2): their kinds, bodies and values, and the one row of all.

use super::setting::{array, null, sample, truth, Setting};
use super::Example;
use super::Expected::{self, Excluded, Included, Refused};
use crate::kind::{ARRAY, BOOLEAN, INTEGERS, NULL, SINT16, SINT32, SINT64, SINT8, UINT16, UINT32, UINT64, UINT8};
use crate::record::write;

pub fn examples() -> Vec<Example> {
    let mut out = former_kinds();
    out.extend(all_bits_set());
    out.extend(highest_bit_set());
    out.extend(lengths());
    out.extend(lengths_in_arrays());
    out.extend(literals_beyond_the_width());
    out.extend(limits_of_literals());
    out.extend(one_row());
    out.extend(arrays_of_two_types());
    out.extend(the_sample_in_other_types());
    out
}

/// A property `A` after a boolean: its record starts at 10 in the table and at 5 in the instance.
fn one(kind: u16, record: Vec<u8>) -> Setting {
    Setting::new("C", &[("B", BOOLEAN, truth(true)), ("A", kind, record)])
}

/// "A table with kind 2 or 3 now meets number 2."
fn former_kinds() -> Vec<Example> {
    let mut out = Vec::new();
    for (kind, body) in [(0x0002, &[0; 8][..]), (0x0003, &[0; 8]), (0x0102, &[]), (0x0103, &[])] {
        out.extend(one(kind, write(kind, body)).ask(&[("B = TRUE", Refused(2, 10)), ("A = 0", Refused(2, 10))]));
        out.extend(one(UINT64, write(kind, body)).ask(&[("B = TRUE", Refused(31, 5))]));
        out.extend(one(ARRAY | UINT64, write(kind, body)).ask(&[("B = TRUE", Refused(31, 5))]));
    }
    for kind in [0x0002, 0x0003] {
        let elements = write(ARRAY | UINT64, &write(kind, &[0; 8]));
        out.extend(one(ARRAY | UINT64, elements).ask(&[("B = TRUE", Refused(31, 5))]));
    }
    out
}

/// The bytes 0xFF are −1 with a sign, and without one the highest number.
fn all_bits_set() -> Vec<Example> {
    let mut out = Vec::new();
    for (unsigned, signed, bytes, highest) in [
        (UINT8, SINT8, 1, "255"),
        (UINT16, SINT16, 2, "65535"),
        (UINT32, SINT32, 4, "4294967295"),
        (UINT64, SINT64, 8, "18446744073709551615"),
    ] {
        let body = vec![0xff; bytes];
        out.extend(one(unsigned, write(unsigned, &body)).ask(&[
            (format!("A = {highest}"), Included(1)),
            (format!("A > {highest}"), Excluded(1)),
            ("A = -1".to_owned(), Excluded(1)),
            ("A > -1".to_owned(), Included(1)),
        ]));
        out.extend(one(signed, write(signed, &body)).ask(&[
            ("A = -1".to_owned(), Included(1)),
            ("A < 0".to_owned(), Included(1)),
            (format!("A = {highest}"), Excluded(1)),
        ]));
    }
    out
}

/// The highest bit alone: the lowest number with a sign. All others alone: the highest.
fn highest_bit_set() -> Vec<Example> {
    let mut out = Vec::new();
    for (unsigned, signed, bytes, size) in [
        (UINT8, SINT8, 1, 128),
        (UINT16, SINT16, 2, 32_768),
        (UINT32, SINT32, 4, 2_147_483_648),
        (UINT64, SINT64, 8, 9_223_372_036_854_775_808_u64),
    ] {
        let body = &size.to_le_bytes()[..bytes];
        let below = &(size - 1).to_le_bytes()[..bytes];
        out.extend(one(unsigned, write(unsigned, body)).ask(&[(format!("A = {size}"), Included(1))]));
        out.extend(one(signed, write(signed, body)).ask(&[(format!("A = -{size}"), Included(1))]));
        for kind in [unsigned, signed] {
            out.extend(one(kind, write(kind, below)).ask(&[(format!("A = {}", size - 1), Included(1))]));
        }
    }
    out
}

const BYTES: [(u16, usize); 8] =
    [(UINT8, 1), (UINT16, 2), (UINT32, 4), (UINT64, 8), (SINT8, 1), (SINT16, 2), (SINT32, 4), (SINT64, 8)];

fn conforms(rule: bool) -> Expected {
    match rule {
        true => Included(1),
        false => Refused(31, 5),
    }
}

/// A body of another length is 31 at its record.
fn lengths() -> Vec<Example> {
    let mut out = Vec::new();
    for (kind, bytes) in BYTES {
        for length in (0..=10).chain([16]) {
            let expected = conforms(length == bytes);
            out.extend(one(kind, write(kind, &vec![0; length])).ask(&[("B = TRUE", expected)]));
        }
        out.extend(one(kind, null()).ask(&[("A = NULL", Included(1))]));
        out.extend(one(kind, write(NULL, &vec![0; bytes])).ask(&[("B = TRUE", Refused(31, 5))]));
    }
    out
}

/// Inside an array it is 31 at the array's record.
fn lengths_in_arrays() -> Vec<Example> {
    let mut out = Vec::new();
    for (kind, bytes) in BYTES {
        let good = write(kind, &vec![1; bytes]);
        for length in 0..=9 {
            let last = write(kind, &vec![1; length]);
            let elements = array(kind, &[good.clone(), null(), last]);
            out.extend(one(ARRAY | kind, elements).ask(&[("B = TRUE", conforms(length == bytes))]));
        }
        // An element has the plain type, not the array's kind nor another integer's.
        for other in [ARRAY | kind, if kind == UINT8 { SINT8 } else { UINT8 }] {
            let elements = array(kind, &[good.clone(), write(other, &[1])]);
            out.extend(one(ARRAY | kind, elements).ask(&[("B = TRUE", Refused(31, 5))]));
        }
    }
    out
}

/// Literals keep the range of 01, so one that no body of the width holds is compared like any other.
fn literals_beyond_the_width() -> Vec<Example> {
    let mut out = Vec::new();
    for body in [0, 1, 44, 255] {
        out.extend(one(UINT8, write(UINT8, &[body])).ask(&[
            ("A = 300", Excluded(1)),
            ("A = 256", Excluded(1)),
            ("A <> 300", Included(1)),
            ("A < 300", Included(1)),
            ("A <= 256", Included(1)),
            ("A > 256", Excluded(1)),
            ("A >= -1", Included(1)),
            ("A = -1", Excluded(1)),
        ]));
    }
    let many = array(UINT8, &[write(UINT8, &[44]), write(UINT8, &[255])]);
    out.extend(one(ARRAY | UINT8, many).ask(&[
        ("ANY A = 300", Excluded(3)),
        ("EVERY A < 300", Included(3)),
        ("A[0] = 300", Excluded(1)),
        ("A = {300,255}", Excluded(2)),
        ("A = {44,511}", Excluded(3)),
        ("A = {44,255}", Included(3)),
    ]));
    out.extend(one(SINT8, write(SINT8, &[0x80])).ask(&[
        ("A = -128", Included(1)),
        ("A = 128", Excluded(1)),
        ("A > -129", Included(1)),
        ("A = -384", Excluded(1)),
        ("A < 18446744073709551615", Included(1)),
        ("A > -18446744073709551615", Included(1)),
    ]));
    out
}

/// 23 is for numbers beyond ±(2^64−1), on every width.
fn limits_of_literals() -> Vec<Example> {
    let of = |(kind, bytes): (u16, usize)| {
        one(kind, write(kind, &vec![0; bytes])).ask(&[
            ("A < 18446744073709551615", Included(1)),
            ("A < 18446744073709551616", Refused(23, 4)),
            ("A > -18446744073709551615", Included(1)),
            ("A > -18446744073709551616", Refused(23, 4)),
        ])
    };
    BYTES.into_iter().flat_map(of).collect()
}

/// 5 and 6 in any two types.
fn one_row() -> Vec<Example> {
    let mut out = Vec::new();
    for (a, m) in BYTES {
        for (b, n) in BYTES {
            let body = |x: u64, bytes: usize| x.to_le_bytes()[..bytes].to_vec();
            let setting = Setting::new("C", &[("A", a, write(a, &body(5, m))), ("D", b, write(b, &body(6, n)))]);
            out.extend(setting.ask(&[("A < D", Included(1)), ("A = D", Excluded(1)), ("D >= A", Included(1))]));
            let same = setting.with("D", write(b, &body(5, n)));
            out.extend(same.ask(&[("A = D", Included(1)), ("D <= A", Included(1)), ("D < A", Excluded(1))]));
        }
    }
    for kind in INTEGERS {
        out.extend(one(kind, null()).ask(&[
            ("A = B", Refused(21, 0)),
            ("A LIKE '1'", Refused(21, 0)),
            ("A = 1.", Refused(21, 0)),
            ("A = '1'", Refused(21, 0)),
            ("A < NULL", Refused(21, 0)),
            ("A = {1}", Refused(22, 0)),
            ("A < 1", Excluded(1)),
        ]));
    }
    out
}

fn arrays_of_two_types() -> Vec<Example> {
    let narrow = array(SINT8, &[write(SINT8, &[0xff]), null(), write(SINT8, &[3])]);
    let wide = |third: i32| {
        let number = |n: i32| write(SINT32, &n.to_le_bytes());
        array(SINT32, &[number(-1), null(), number(third)])
    };
    let setting = Setting::new("C", &[("A", ARRAY | SINT8, narrow), ("D", ARRAY | SINT32, wide(3))]);
    let mut out = setting.ask(&[
        ("A = D", Included(4)),
        ("D = A", Included(4)),
        ("A <> D", Excluded(4)),
        ("A[0] = D[0]", Included(1)),
        ("ANY A > D[0]", Included(4)),
        ("A[1] = D[1]", Included(1)),
    ]);
    out.extend(setting.with("D", wide(259)).ask(&[("A = D", Excluded(4)), ("ANY A < D[2]", Included(2))]));
    out.extend(setting.with("D", null()).ask(&[("A = D", Excluded(1)), ("D[0] = NULL", Included(1))]));
    let bytes = array(UINT8, &[write(UINT8, &[0xff]), null(), write(UINT8, &[3])]);
    let unsigned = Setting::new("C", &[("A", ARRAY | UINT8, bytes), ("D", ARRAY | SINT32, wide(3))]);
    out.extend(unsigned.ask(&[("A = D", Excluded(2)), ("A[2] = D[2]", Included(1)), ("A[0] > D[0]", Included(1))]));
    out
}

/// 01's examples on the same numbers in one byte each.
fn the_sample_in_other_types() -> Vec<Example> {
    let on = sample();
    let dev = array(UINT8, &[write(UINT8, &[3]), write(UINT8, &[14])]);
    let narrow = on.of_kind("Temp", SINT8, write(SINT8, &[0xfb])).of_kind("Dev", ARRAY | UINT8, dev);
    narrow.ask(&[
        ("Dev = {3,14}", Included(3)),
        ("Dev = {14,3}", Excluded(2)),
        ("ANY Dev = 14", Included(3)),
        ("NOT EVERY Dev = 3", Included(3)),
        ("Dev[2] = NULL", Included(1)),
        ("Temp > 0 AND On = TRUE OR R = .5", Included(2)),
        ("Temp < 18446744073709551615", Included(1)),
        ("Temp < 18446744073709551616", Refused(23, 7)),
        ("Temp = -5", Included(1)),
    ])
}
