//! Tables and instances that are well-formed, or not (01, "Records"; numbers 2, 3, 30 and 31).

use super::setting::{
    array, char16, datetime, null, octets, real64, reference, sample, sint64, text, truth, types, uint64,
};
use super::Example;
use super::Expected::{self, Excluded, Included, Refused};
use crate::kind::{
    ARRAY, BOOLEAN, CHAR16, CLASS, DATETIME, NULL, REAL32, REAL64, REFERENCE, SINT64, STRING, TYPES, UINT32, UINT64,
};
use crate::record::write;

pub fn examples() -> Vec<Example> {
    let mut out = whole_tables();
    out.extend(further_properties());
    out.extend(classes());
    out.extend(many_properties());
    out.extend(cut_instances());
    out.extend(subclass_records());
    out.extend(wrong_records());
    out.extend(wrong_arrays());
    out.extend(values_of_each_type());
    out.extend(long_instances());
    out
}

fn asked(query: &str, table: Vec<u8>, instance: Vec<u8>, expected: Expected) -> Example {
    Example { query: query.as_bytes().to_vec(), table, instance, expected }
}

/// The sample's records start at 0, 5, 11, 19, 26, 34 and 43; it has 48 bytes.
fn whole_tables() -> Vec<Example> {
    let (table, instance) = (sample().table(), sample().instance());
    let tried = |bytes: Vec<u8>, expected| asked("On = TRUE", bytes, instance.clone(), expected);
    let longer = |tail: &[u8]| [&table[..], tail].concat();
    vec![
        tried(table.clone(), Included(1)),
        tried(vec![], Refused(2, 0)),
        tried(table[..47].to_vec(), Refused(2, 43)),
        tried(table[..44].to_vec(), Refused(2, 43)),
        tried(table[..4].to_vec(), Refused(2, 0)),
        tried(table[5..].to_vec(), Refused(2, 0)),
        tried(longer(&[0]), Refused(2, 48)),
        tried(longer(&[0, 0, 0]), Refused(2, 48)),
        tried(longer(&[2, 0, 1, 0, b'x']), Refused(2, 48)),
        tried(longer(&table), Refused(2, 48)),
        // A class without properties; the instance's records are then a subclass's.
        tried(table[..5].to_vec(), Refused(20, 0)),
    ]
}

/// 01's kinds of integers, and others that are no type: of no number of bytes, of no sign, with more added to an array.
const UNKNOWN: [u16; 32] = [
    0x0000, 0x0002, 0x0003, 0x000b, 0x0010, 0x0013, 0x0015, 0x0016, 0x0017, 0x0019, 0x0020, 0x0023, 0x0029, 0x0031,
    0x0038, 0x0041, 0x0081, 0x0100, 0x0102, 0x0103, 0x010b, 0x0113, 0x0131, 0x0200, 0x0201, 0x0211, 0x0302, 0x0a01,
    0x1002, 0x1011, 0x1128, 0xffff,
];

/// A seventh property, at 48, and NULL for it.
fn further_properties() -> Vec<Example> {
    let tried = |kind: u16, name: &str, expected| {
        let table = [sample().table(), write(kind, name.as_bytes())].concat();
        asked("On = TRUE", table, [sample().instance(), null()].concat(), expected)
    };
    let mut out = Vec::new();
    for kind in TYPES {
        out.push(tried(kind, "x", Included(1)));
        out.push(tried(ARRAY | kind, "x", Included(1)));
    }
    for kind in UNKNOWN {
        out.push(tried(kind, "x", Refused(2, 48)));
    }
    for name in ["_", "And", "NULL", "any", "P", "p", "x".repeat(64).as_str(), "_9", "Z_"] {
        out.push(tried(STRING, name, Included(1)));
    }
    for name in ["", "1x", "\u{e9}", "a-b", "a b", "a.b", "x\0", "x".repeat(65).as_str()] {
        out.push(tried(STRING, name, Refused(2, 48)));
    }
    for name in ["Temp", "TEMP", "tEMp", "on", "r"] {
        out.push(tried(STRING, name, Refused(3, 48)));
    }
    // 2 comes before 3.
    out.push(tried(0x0002, "Temp", Refused(2, 48)));
    out.push(tried(0x000b, "Temp", Refused(2, 48)));
    out
}

fn classes() -> Vec<Example> {
    let tried = |class: &str, expected| {
        let table = [write(CLASS, class.as_bytes()), write(BOOLEAN, b"On")].concat();
        asked("On = TRUE", table, truth(true), expected)
    };
    let mut out = Vec::new();
    for class in ["P", "_", "x1", "Andy", "On", "x".repeat(64).as_str()] {
        out.push(tried(class, Included(1)));
    }
    for class in ["", "1", "And", "ANY", "every", "False", "LIKE", "Not", "nuLL", "or", "true", "x".repeat(65).as_str()]
    {
        out.push(tried(class, Refused(2, 0)));
    }
    out.push(asked("On = TRUE", [write(0x0201, b"P"), write(BOOLEAN, b"On")].concat(), truth(true), Refused(2, 0)));
    out
}

fn many_properties() -> Vec<Example> {
    let table = |n: usize| {
        (0..n).fold(write(CLASS, b"C"), |out, i| [out, write(BOOLEAN, format!("p{i:03}").as_bytes())].concat())
    };
    let nulls = null().repeat(129);
    let repeated = [table(128), write(BOOLEAN, b"p000")].concat();
    let long = |last: usize| {
        let name = |i: usize| format!("{i:_>60}");
        let many = (0..127).fold(write(CLASS, b"C"), |out, i| [out, write(STRING, name(i).as_bytes())].concat());
        [many, write(STRING, "z".repeat(last).as_bytes())].concat()
    };
    let last = "z".repeat(55);
    vec![
        asked("p000 = NULL AND p127 = NULL", table(128), nulls.clone(), Included(2)),
        asked("p000 = NULL", table(129), nulls.clone(), Refused(2, 5 + 128 * 8)),
        asked("p000 = NULL", repeated, nulls.clone(), Refused(2, 5 + 128 * 8)),
        asked(&format!("{last} = NULL"), long(55), nulls.clone(), Included(1)),
        asked(&format!("{last} = NULL"), long(56), nulls, Refused(2, 0)),
    ]
}

/// The sample's records start at 0, 5, 17, 45, 54 and 83; it has 95 bytes.
fn cut_instances() -> Vec<Example> {
    let instance = sample().instance();
    let cuts =
        [(0, 0), (1, 0), (4, 0), (5, 5), (16, 5), (17, 17), (30, 17), (45, 45), (48, 45), (54, 54), (82, 54), (83, 83)];
    let mut out: Vec<Example> = cuts
        .iter()
        .map(|&(cut, place)| asked("On = TRUE", sample().table(), instance[..cut].to_vec(), Refused(31, place)))
        .collect();
    out.push(asked("On = TRUE", sample().table(), instance[..94].to_vec(), Refused(31, 83)));
    // A wrong value comes before a later record that is cut.
    let wrong = sample().with("Temp", write(SINT64, &[0; 7])).instance();
    out.push(asked("On = TRUE", sample().table(), wrong[..89].to_vec(), Refused(31, 5)));
    out
}

fn subclass_records() -> Vec<Example> {
    let tried =
        |tail: Vec<u8>, expected| asked("On = TRUE", sample().table(), [sample().instance(), tail].concat(), expected);
    vec![
        tried(write(NULL, b"body"), Included(1)),
        tried(write(CLASS, &[]), Included(1)),
        tried([write(0xffff, &[1]), write(DATETIME, b"no datetime")].concat(), Included(1)),
        tried(vec![0], Refused(31, 95)),
        tried(vec![0, 0, 0], Refused(31, 95)),
        tried(vec![1, 0, 6, 0], Refused(31, 95)),
        tried([write(CHAR16, &[0]), vec![9, 0, 0, 0, 0]].concat(), Refused(31, 100)),
    ]
}

fn wrong_records() -> Vec<Example> {
    let place = |name: &str| match name {
        "On" => 0,
        "Temp" => 5,
        "Name" => 45,
        "Since" => 54,
        _ => 83,
    };
    let wrong = [
        ("On", write(BOOLEAN, &[2])),
        ("On", write(BOOLEAN, &[])),
        ("On", write(BOOLEAN, &[1, 1])),
        ("On", write(UINT64, &[1])),
        ("On", write(NULL, &[1])),
        ("On", write(ARRAY | BOOLEAN, &[])),
        ("Temp", write(SINT64, &[0; 7])),
        ("Temp", write(SINT64, &[0; 9])),
        ("Temp", uint64(5)),
        ("Name", write(STRING, &[0xc0, 0x80])),
        ("Name", write(STRING, &[0xed, 0xa0, 0x80])),
        ("Name", write(STRING, &[0xf4, 0x90, 0x80, 0x80])),
        ("Name", write(STRING, &[b'a', 0x80])),
        ("Name", write(STRING, &[0xe2, 0x82])),
        ("Name", reference("FAN_2")),
        ("Since", datetime("20050229000000.000000+000")),
        ("Since", datetime("20051003112233.000000+00")),
        ("Since", datetime("20051003112233.000000+00*")),
        ("R", write(REAL64, &[0; 4])),
        ("R", write(REAL32, &[0; 4])),
    ];
    wrong
        .into_iter()
        .flat_map(|(name, record)| sample().with(name, record).ask(&[("On = TRUE", Refused(31, place(name)))]))
        .collect()
}

fn wrong_arrays() -> Vec<Example> {
    let wrong = [
        uint64(3),
        write(ARRAY | SINT64, &[]),
        write(ARRAY | UINT32, &[]),
        write(0x0218, &[]),
        array(UINT64, &[write(ARRAY | UINT64, &[])]),
        array(UINT64, &[sint64(3)]),
        array(UINT64, &[write(UINT64, &[0; 7])]),
        array(UINT64, &[write(NULL, &[0])]),
        array(UINT64, &[uint64(3), vec![0]]),
        array(UINT64, &[uint64(3), vec![1, 0, 0x18, 0]]),
        array(UINT64, &vec![null(); 257]),
        array(UINT64, &vec![uint64(1); 257]),
    ];
    let mut out: Vec<Example> = wrong
        .into_iter()
        .flat_map(|record| sample().with("Dev", record).ask(&[("On = TRUE", Refused(31, 17))]))
        .collect();
    out.extend(sample().with("Dev", array(UINT64, &vec![null(); 256])).ask(&[("EVERY Dev = NULL", Included(257))]));
    out.extend(sample().with("Dev", array(UINT64, &[])).ask(&[("Dev = {}", Included(1))]));
    out.extend(sample().with("Dev", null()).ask(&[("Dev = {}", Excluded(1))]));
    out
}

/// `C`, `O` and `K` of the class with all types start at 58, 64 and 99.
fn values_of_each_type() -> Vec<Example> {
    let mut out = Vec::new();
    for unit in [0, 9, 0xd7ff, 0xe000, 0xfffe, 0xffff] {
        out.extend(types().with("C", char16(unit)).ask(&[("C <> NULL", Included(1))]));
    }
    for unit in [0xd800, 0xdbff, 0xdc00, 0xdfff] {
        out.extend(types().with("C", char16(unit)).ask(&[("C <> NULL", Refused(31, 58))]));
    }
    out.extend(types().with("C", write(CHAR16, &[0])).ask(&[("C <> NULL", Refused(31, 58))]));
    for body in [&[][..], &[0xff], &[0; 5_000]] {
        out.extend(types().with("O", octets(body)).ask(&[("O <> NULL", Included(1))]));
    }
    out.extend(types().with("K", write(REFERENCE, &[0xff])).ask(&[("K <> NULL", Refused(31, 99))]));
    for value in ["", "\0", "\u{ffff}", "\t", "\u{10ffff}"] {
        out.extend(
            types().with("S", text(value)).with("K", reference(value)).ask(&[("S <> NULL AND K <> NULL", Included(2))]),
        );
    }
    for value in [f64::NAN, -f64::NAN, f64::from_bits(0x7ff0_0000_0000_0001), f64::INFINITY, -0.0, f64::from_bits(1)] {
        out.extend(types().with("D", real64(value)).ask(&[("D <> NULL", Included(1))]));
    }
    for name in ["B", "U", "I", "F", "D", "S", "C", "O", "T", "K"] {
        out.extend(types().with(name, null()).ask(&[(format!("{name} = NULL"), Included(1))]));
        out.extend(types().with(&format!("{name}s"), null()).ask(&[(format!("{name}s[0] = NULL"), Included(1))]));
    }
    out
}

fn long_instances() -> Vec<Example> {
    let of = |n: usize| [sample().instance(), write(0x4444, &vec![7; n - 99])].concat();
    let tried = |bytes: Vec<u8>, expected| asked("On = TRUE", sample().table(), bytes, expected);
    let long = sample().with("Name", text(&"x".repeat(60_000))).ask(&[("Name LIKE 'x*'", Included(60_001))]);
    let mut out = vec![
        tried(of(65_535), Included(1)),
        tried(of(65_536), Refused(30, 0)),
        // Four zeros are a NULL: six properties, subclass records, and three bytes left over.
        tried(vec![0; 65_535], Refused(31, 65_532)),
        tried(vec![0; 65_536], Refused(30, 0)),
        tried([of(60_000), vec![1]].concat(), Refused(31, 60_000)),
    ];
    out.extend(long);
    out
}
