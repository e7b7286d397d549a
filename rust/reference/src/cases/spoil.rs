//! Tables and instances with one fault at a known record.

use super::source::Source;
use super::{comparison, datetime, table as tables, tokens, value, Case, Intended};
use crate::kind::{
    is_array, is_of_a_table, type_of, ARRAY, BOOLEAN, CHAR16, CLASS, DATETIME, INTEGERS, NULL, OCTETS, REAL32, REAL64,
    REFERENCE, STRING,
};
use crate::random::Random;
use crate::record::{read, write};

/// A table with one fault; the query may have some too, which come after it.
pub fn table(r: &mut Random) -> Case {
    let source = Source::of_all_types(r);
    let query = comparison::query(r, &source);
    let query = match r.below(4) {
        0 => r.damage(&query),
        1 => vec![r.byte(); 4_090 + r.below(10)],
        _ => query,
    };
    let (table, number, place) = faulty_table(r, &source);
    Case { table, ..source.case("table with a fault", query, Intended::Refusal(number, place)) }
}

/// The records before one, that one, and those after it.
pub fn parted(bytes: &[u8], number: usize) -> (Vec<u8>, Vec<u8>, Vec<u8>) {
    let (records, _) = read(bytes);
    let start = records[number].start;
    let end = start + 4 + records[number].body.len();
    (bytes[..start].to_vec(), bytes[start..end].to_vec(), bytes[end..].to_vec())
}

fn faulty_table(r: &mut Random, s: &Source) -> (Vec<u8>, u64, u64) {
    let bytes = s.table.write();
    let number = 1 + r.below(s.table.properties.len());
    let (before, own, after) = parted(&bytes, number);
    let place = before.len() as u64;
    let kind = tables::kind(r);
    match r.below(8) {
        0 => {
            let earlier = &s.table.properties[r.below(s.table.properties.len())].name;
            let name = tokens::in_any_case(r, std::str::from_utf8(earlier).unwrap());
            ([bytes.clone(), write(kind, name.as_bytes()), vec![9; 3]].concat(), 3, bytes.len() as u64)
        }
        1 => ([before, write(kind, bad_name(r).as_bytes()), after].concat(), 2, place),
        2 => {
            let kind = unknown_kind(r);
            ([before, write(kind, b"fresh"), after].concat(), 2, place)
        }
        3 => {
            let cut = 1 + r.below(own.len() - 1);
            ([before, own[..cut].to_vec()].concat(), 2, place)
        }
        4 => {
            let tail: Vec<u8> = (0..1 + r.below(3)).map(|_| r.byte()).collect();
            ([bytes.clone(), tail].concat(), 2, bytes.len() as u64)
        }
        5 => {
            let class = r.pick(&["And", "OR", "null", "", "1x", "a.b", "Every"]);
            ([write(CLASS, class.as_bytes()), bytes[4 + s.table.class.len()..].to_vec()].concat(), 2, 0)
        }
        6 => {
            let (kind, name) = (r.pick(&[NULL, BOOLEAN, ARRAY, 0x0201]), s.table.class.clone());
            ([write(kind, &name), bytes[4 + name.len()..].to_vec()].concat(), 2, 0)
        }
        _ => (if r.chance(2) { vec![] } else { bytes.repeat(8_193 / bytes.len() + 1) }, 2, 0),
    }
}

/// A kind that no property has: among others those of 01's integers, and ones near those of 02.
fn unknown_kind(r: &mut Random) -> u16 {
    let near = [
        0x0000, 0x0002, 0x0003, 0x000b, 0x0010, 0x0013, 0x0019, 0x0020, 0x0023, 0x0031, 0x0038, 0x0081, 0x00ff, 0x0100,
        0x0102, 0x0103, 0x010b, 0x0113, 0x0131, 0x0200, 0x0201, 0x0211, 0x0318, 0x1002, 0x1011, 0x1128, 0xffff,
    ];
    match r.chance(2) {
        true => r.pick(&near),
        false => loop {
            let kind = r.word() as u16 & r.pick(&[0xffff, 0x01ff]);
            if !is_of_a_table(kind) {
                return kind;
            }
        },
    }
}

fn bad_name(r: &mut Random) -> String {
    let long = "x".repeat(65 + r.below(5));
    r.pick(&["", "1x", "9", "a b", "a-b", "a.b", "\u{e9}", "x\0", " x", long.as_str()]).to_owned()
}

/// An instance with one fault.
pub fn instance(r: &mut Random) -> Case {
    let source = Source::of_all_types(r);
    let query = comparison::query(r, &source);
    let (instance, number, place) = faulty_instance(r, &source);
    Case { instance, ..source.case("instance with a fault", query, Intended::Refusal(number, place)) }
}

fn faulty_instance(r: &mut Random, s: &Source) -> (Vec<u8>, u64, u64) {
    let number = r.below(s.table.properties.len());
    let (before, own, after) = parted(&s.instance, number);
    let place = before.len() as u64;
    let length = s.instance.len();
    match r.below(12) {
        0 => (before, 31, place),
        1 => {
            let cut = 1 + r.below(own.len() - 1);
            ([before, own[..cut].to_vec()].concat(), 31, place)
        }
        2 => {
            let tail = r.pick(&[&[0][..], &[0, 0, 0], &[1, 0, 0, 0], &[0xff, 0xff, 2, 0, 7]]);
            ([s.instance.clone(), tail.to_vec()].concat(), 31, length as u64)
        }
        3 => {
            let over = 65_536 + r.below(70_000);
            ([s.instance.clone(), vec![0; over - length]].concat(), 30, 0)
        }
        _ => ([before, wrong_record(r, s.kind(number)), after].concat(), 31, place),
    }
}

/// A record that isn't one of this kind.
pub fn wrong_record(r: &mut Random, kind: u16) -> Vec<u8> {
    match r.below(6) {
        0 => write(NULL, &[0]),
        1 => {
            let other = loop {
                let other = tables::kind(r);
                if other != kind {
                    break other;
                }
            };
            let plain = value::body(r, type_of(other));
            let body = if is_array(other) { vec![] } else { plain };
            write(other, &body)
        }
        _ if is_array(kind) => wrong_array(r, kind),
        // Every body is one of octets.
        _ if kind == OCTETS => write(r.pick(&[11, ARRAY | OCTETS, 0x1008]), &[]),
        _ => write(kind, &wrong_body(r, kind)),
    }
}

fn wrong_body(r: &mut Random, kind: u16) -> Vec<u8> {
    match kind {
        BOOLEAN => r.pick(&[&[2][..], &[255], &[], &[1, 0]]).to_vec(),
        REAL64 => vec![1; r.pick(&[0, 4, 7, 9, 16])],
        REAL32 => vec![1; r.pick(&[0, 3, 5, 8])],
        STRING | REFERENCE => {
            let bad = r.pick(&[
                &[0xff][..],
                &[0xc0, 0x80],
                &[0xed, 0xa0, 0x80],
                &[0xf4, 0x90, 0x80, 0x80],
                &[0xe2, 0x82],
                &[0x80],
            ]);
            [value::text(r).as_bytes(), bad, b"x"].concat()
        }
        CHAR16 => match r.chance(2) {
            true => vec![r.byte(), 0xd8 + r.below(8) as u8],
            false => vec![0x61; r.pick(&[0, 1, 3])],
        },
        DATETIME => datetime::malformed(r).into_bytes(),
        _ if INTEGERS.contains(&kind) => another_length(r, kind),
        other => panic!("{other} has no wrong body"),
    }
}

/// A body of another length than the integer type's: one byte short or long, none, or another type's.
fn another_length(r: &mut Random, kind: u16) -> Vec<u8> {
    let good = value::body(r, kind);
    match r.below(4) {
        0 => good[1..].to_vec(),
        1 => [&good[..], &[r.pick(&[0, 0xff])]].concat(),
        2 => Vec::new(),
        _ => loop {
            let other = r.pick(&INTEGERS);
            let body = value::body(r, other);
            if body.len() != good.len() {
                return body;
            }
        },
    }
}

fn wrong_array(r: &mut Random, kind: u16) -> Vec<u8> {
    let plain = type_of(kind);
    let good = write(plain, &value::body(r, plain));
    let spoiled = match r.below(5) {
        0 => return write(kind, &write(NULL, &[]).repeat(257 + r.below(40))),
        1 => vec![9; 1 + r.below(3)],
        2 => write(kind, &[]),
        3 => write(NULL, &[1]),
        _ => wrong_record(r, plain),
    };
    let n = r.below(3);
    write(kind, &[good.repeat(n), spoiled, write(NULL, &[])].concat())
}
