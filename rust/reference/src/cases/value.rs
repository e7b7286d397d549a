//! Random values as records, and random instances.

use super::datetime;
use crate::integer;
use crate::kind::{
    is_array, type_of, ARRAY, BOOLEAN, CHAR16, CLASS, DATETIME, INTEGERS, NULL, OCTETS, REAL32, REAL64, REFERENCE,
    STRING, UINT64,
};
use crate::random::Random;
use crate::record::{write, Table, LENGTH_OF_INSTANCE};

const TEXTS: [&str; 16] = [
    "",
    "a",
    "b",
    "ab",
    "abc",
    "FAN_2",
    "Manual",
    "x",
    "\u{e9}",
    "\u{1d11e}",
    "\0",
    "a\0b",
    "\u{ffff}",
    "'\\",
    "\t\r\n",
    "e\u{301}",
];

fn from_set<T: Copy>(r: &mut Random, often: &[T], otherwise: T) -> T {
    if r.chance(4) {
        otherwise
    } else {
        r.pick(often)
    }
}

/// A number of an integer type: at one of its borders, at another type's, a small one, or any.
fn integer(r: &mut Random, kind: u16) -> Vec<u8> {
    let (lowest, highest) = integer::range(kind);
    let often = [lowest, lowest, lowest + 1, -1, -1, 0, 0, 1, 2, 3, -5, 5, 14, highest - 1, highest, highest];
    loop {
        let other = integer::range(r.pick(&INTEGERS));
        let near = [other.0, other.0 - 1, other.1, other.1 + 1];
        let n = match r.below(8) {
            0 | 1 => lowest + i128::from(r.word()) % (highest - lowest + 1),
            2 => r.pick(&near),
            _ => r.pick(&often),
        };
        if let Some(body) = integer::write(kind, n) {
            return body;
        }
    }
}

fn real32(r: &mut Random) -> f32 {
    let any = f32::from_bits(r.word() as u32);
    let nan = f32::from_bits(0x7f80_0001);
    let often = [
        0.0,
        -0.0,
        0.5,
        0.1,
        -0.1,
        1.5,
        3.0,
        1e10,
        f32::NAN,
        nan,
        f32::INFINITY,
        f32::NEG_INFINITY,
        f32::from_bits(1),
        f32::MIN_POSITIVE,
        f32::MAX,
    ];
    from_set(r, &often, any)
}

fn real64(r: &mut Random) -> f64 {
    let any = f64::from_bits(r.word());
    let nan = f64::from_bits(0xfff0_0000_0000_0001);
    let often = [
        0.0,
        -0.0,
        0.5,
        0.1,
        -0.1,
        0.15,
        0.1 + 0.05,
        1.5,
        3.0,
        1e10,
        1e22,
        f64::NAN,
        nan,
        f64::INFINITY,
        f64::NEG_INFINITY,
        f64::from_bits(1),
        f64::MIN_POSITIVE,
        f64::MAX,
        f64::from(0.1f32),
    ];
    from_set(r, &often, any)
}

pub fn text(r: &mut Random) -> String {
    if r.chance(2) {
        return r.pick(&TEXTS).to_owned();
    }
    let n = r.below(12);
    (0..n).map(|_| r.pick(&['a', 'a', 'b', 'c', 'F', '_', '2', '.', '\u{e9}', '\u{1d11e}', '\\'])).collect()
}

fn char16(r: &mut Random) -> u16 {
    loop {
        let any = r.word() as u16;
        let unit = from_set(r, &[0, 9, 0x61, 0x62, 0x78, 0xe9, 0xd7ff, 0xe000, 0xfffe, 0xffff], any);
        if !(0xd800..=0xdfff).contains(&unit) {
            return unit;
        }
    }
}

/// The body of a value of a plain type.
pub fn body(r: &mut Random, kind: u16) -> Vec<u8> {
    match kind {
        BOOLEAN => vec![r.below(2) as u8],
        REAL32 => real32(r).to_le_bytes().to_vec(),
        REAL64 => real64(r).to_le_bytes().to_vec(),
        STRING => text(r).into_bytes(),
        CHAR16 => char16(r).to_le_bytes().to_vec(),
        OCTETS => {
            let n = r.below(5);
            (0..n).map(|_| r.pick(&[0, 1, 2, 0xab, 0xff])).collect()
        }
        DATETIME => datetime::text(r).into_bytes(),
        REFERENCE => r.pick(&["", "a/b", "root/cimv2:C.k=1", "A/b", "\u{e9}"]).as_bytes().to_vec(),
        _ if INTEGERS.contains(&kind) => integer(r, kind),
        other => panic!("{other} is no plain type"),
    }
}

fn scalar(r: &mut Random, kind: u16) -> Vec<u8> {
    if r.chance(6) {
        return write(NULL, &[]);
    }
    if kind == STRING && r.chance(150) {
        let piece = r.pick(&["ab", "a", "\u{1d11e}", "FAN_"]);
        return write(STRING, piece.repeat(100 + r.below(400)).as_bytes());
    }
    let body = body(r, kind);
    write(kind, &body)
}

fn array(r: &mut Random, kind: u16) -> Vec<u8> {
    if r.chance(6) {
        return write(NULL, &[]);
    }
    let n = match r.below(150) {
        0 => 255 + r.below(2),
        1 => 30 + r.below(5),
        _ => r.below(5),
    };
    let plain = type_of(kind);
    // Runs of one value make searches that end late.
    let repeated = body(r, plain);
    let same = r.chance(3);
    let mut elements = Vec::new();
    for _ in 0..n {
        elements.extend(match r.below(6) {
            0 => write(NULL, &[]),
            _ if same && !r.chance(8) => write(plain, &repeated),
            _ => {
                let body = body(r, plain);
                write(plain, &body)
            }
        });
    }
    write(kind, &elements)
}

/// A record for a property of this kind.
pub fn record(r: &mut Random, kind: u16) -> Vec<u8> {
    match is_array(kind) {
        false => scalar(r, kind),
        true => array(r, kind),
    }
}

/// Records of a subclass: of any kind and body.
pub fn subclass(r: &mut Random) -> Vec<u8> {
    let mut out = Vec::new();
    for _ in 0..1 + r.below(3) {
        let kind = r.word() as u16;
        let kind = r.pick(&[NULL, BOOLEAN, DATETIME, ARRAY | UINT64, CLASS, 0xffff, kind]);
        let body: Vec<u8> = (0..r.below(9)).map(|_| r.byte()).collect();
        out.extend(write(kind, &body));
    }
    out
}

/// An instance that conforms.
pub fn instance(r: &mut Random, table: &Table) -> Vec<u8> {
    let mut out: Vec<u8> = table.properties.iter().flat_map(|p| record(r, p.kind)).collect();
    if out.len() > LENGTH_OF_INSTANCE - 100 {
        out = write(NULL, &[]).repeat(table.properties.len());
    }
    if r.chance(4) {
        out.extend(subclass(r));
    }
    out
}
