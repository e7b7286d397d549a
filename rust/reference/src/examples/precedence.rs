//! Where several causes meet: the one that is told (01, "They are tried in this order").

use super::setting::{null, sample, text, types, Setting};
use super::Example;
use super::Expected::{self, Included, Refused};
use crate::kind::{BOOLEAN, CLASS, REAL32, SINT64, STRING, UINT64};
use crate::record::write;

pub fn examples() -> Vec<Example> {
    let mut out = tables_first();
    out.extend(records_in_turn());
    out.extend(lengths_then_utf8());
    out.extend(ill_formed_sequences());
    out.extend(grammar_before_names());
    out.extend(inside_a_comparison());
    out.extend(between_comparisons());
    out.extend(instances_last());
    out
}

fn asked(query: &[u8], table: Vec<u8>, instance: Vec<u8>, expected: Expected) -> Example {
    Example { query: query.to_vec(), table, instance, expected }
}

fn tables_first() -> Vec<Example> {
    let long = vec![b'x'; 4_097];
    let repeated = [sample().table(), write(BOOLEAN, b"on")].concat();
    vec![
        asked(&long, vec![0; 8_193], vec![0; 65_536], Refused(2, 0)),
        asked(&long, vec![], vec![], Refused(2, 0)),
        asked(&long, repeated.clone(), vec![], Refused(3, 48)),
        asked(b"\xff", repeated, vec![], Refused(3, 48)),
        asked(b"", [sample().table(), vec![9]].concat(), vec![], Refused(2, 48)),
        asked(&long, sample().table(), vec![0; 65_536], Refused(1, 0)),
    ]
}

/// The first property is at 5 and takes 5 bytes, as do the others.
fn records_in_turn() -> Vec<Example> {
    let of = |records: &[Vec<u8>]| {
        let table = [write(CLASS, b"C"), records.concat()].concat();
        (table, null().repeat(records.len()))
    };
    let (repeated_then_bad, nulls) = of(&[write(BOOLEAN, b"a"), write(BOOLEAN, b"A"), write(99, b"b")]);
    let (bad_then_repeated, _) = of(&[write(BOOLEAN, b"a"), write(99, b"b"), write(BOOLEAN, b"A")]);
    let (both, _) = of(&[write(BOOLEAN, b"a"), write(99, b"A")]);
    let (cut, _) = of(&[write(BOOLEAN, b"a"), write(UINT64, b"A"), vec![1, 0, 1, 0]]);
    let (thrice, _) = of(&[write(BOOLEAN, b"a"), write(UINT64, b"b"), write(SINT64, b"B"), write(REAL32, b"A")]);
    vec![
        asked(b"a = NULL", repeated_then_bad, nulls.clone(), Refused(3, 10)),
        asked(b"a = NULL", bad_then_repeated, nulls.clone(), Refused(2, 10)),
        asked(b"a = NULL", both, nulls.clone(), Refused(2, 10)),
        asked(b"a = NULL", cut, nulls.clone(), Refused(3, 10)),
        asked(b"a = NULL", thrice, nulls, Refused(3, 15)),
    ]
}

fn lengths_then_utf8() -> Vec<Example> {
    sample().ask(&[
        (vec![0xff; 4_097], Refused(1, 0)),
        (vec![0xff; 4_096], Refused(10, 0)),
        (b"# \xff".to_vec(), Refused(10, 2)),
        (b"Zed = 1 \x80".to_vec(), Refused(10, 8)),
        (b"On = TRUE\xc3".to_vec(), Refused(10, 9)),
        (b"Name = '\xc3\xa9'".to_vec(), Expected::Excluded(1)),
    ])
}

/// The place of 10 is the first byte at which no well-formed character starts.
fn ill_formed_sequences() -> Vec<Example> {
    let sequences: [&[u8]; 14] = [
        b"\x80",
        b"\xbf",
        b"\xc0\x80",
        b"\xc1\xbf",
        b"\xc3",
        b"\xe0\x80\x80",
        b"\xe0\x9f\xbf",
        b"\xe2\x82",
        b"\xed\xa0\x80",
        b"\xed\xbf\xbf",
        b"\xf0\x8f\xbf\xbf",
        b"\xf0\x9d\x84",
        b"\xf4\x90\x80\x80",
        b"\xf5\x80\x80\x80",
    ];
    let query = |bytes: &[u8]| [&b"Name = '\xe2\x82\xac"[..], bytes, b"'"].concat();
    sequences.iter().flat_map(|bytes| sample().ask(&[(query(bytes), Refused(10, 11))])).collect()
}

fn grammar_before_names() -> Vec<Example> {
    let many = "U=5 OR ".repeat(64);
    types().ask(&[
        ("Zed = 1 AND".to_owned(), Refused(11, 11)),
        ("U = 'x' AND #".to_owned(), Refused(11, 12)),
        (format!("{many}U=5 OR #"), Refused(12, 448)),
        (format!("Zed=5 OR # {many}"), Refused(11, 9)),
        (format!("Zed=5 OR {many}"), Refused(12, 450)),
    ])
}

fn inside_a_comparison() -> Vec<Example> {
    types().ask(&[
        ("Zed = Qux", Refused(20, 0)),
        ("U = Qux", Refused(20, 4)),
        ("Us = Qux", Refused(20, 5)),
        ("Us[70000] = Zip", Refused(20, 12)),
        ("ANY U = Zip", Refused(20, 8)),
        ("Zed LIKE '('", Refused(20, 0)),
        ("Us < U", Refused(22, 0)),
        ("U[70000] = 'x'", Refused(22, 0)),
        ("Ts = 'x'", Refused(22, 0)),
        ("Us[70000] = 'x'", Refused(21, 0)),
        ("D = 99999999999999999999", Refused(21, 0)),
        ("U LIKE '('", Refused(21, 0)),
        ("Ts = {'x',5}", Refused(21, 0)),
        ("T < NULL", Refused(21, 0)),
        ("Ss[70000] LIKE '['", Refused(23, 3)),
        ("Ts[65536] = 'x'", Refused(23, 3)),
        ("Ss[0] LIKE '['", Refused(24, 11)),
        ("Ts[65535] = 'x'", Refused(25, 12)),
    ])
}

fn between_comparisons() -> Vec<Example> {
    types().ask(&[
        ("T = 'x' AND Zip = 1", Refused(25, 4)),
        ("S LIKE '(' OR Zip = 1", Refused(24, 7)),
        ("U = 99999999999999999999 OR Zip = 1", Refused(23, 4)),
        ("U = 'x' AND Us = 1", Refused(21, 0)),
        ("Us = 1 AND Zip = 1", Refused(22, 0)),
        ("U = 5 AND Zip = 1 AND Us = 1", Refused(20, 10)),
        ("(U = 5) AND (T = 'x') OR (Zip = 1)", Refused(25, 17)),
    ])
}

fn instances_last() -> Vec<Example> {
    let (table, short, long) = (sample().table(), vec![0; 3], vec![0; 65_536]);
    let missing = Setting::new("P", &[("S", STRING, text("x"))]);
    let mut out = vec![
        asked(b"Zed = 1", table.clone(), long.clone(), Refused(20, 0)),
        asked(b"Zed = 1", table.clone(), short.clone(), Refused(20, 0)),
        asked(b"On = TRUE AND", table.clone(), long.clone(), Refused(11, 13)),
        asked(b"Name LIKE '('", table.clone(), short.clone(), Refused(24, 10)),
        asked(b"Since = 'x'", table.clone(), long.clone(), Refused(25, 8)),
        asked(b"On = TRUE", table.clone(), long, Refused(30, 0)),
        asked(b"On = TRUE", table, short, Refused(31, 0)),
    ];
    out.extend(missing.ask(&[("S = 'x'", Included(1))]));
    out
}
