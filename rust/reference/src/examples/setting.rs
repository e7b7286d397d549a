//! A class with its properties and an instance of it, as the examples need them.

use super::{Example, Expected};
use crate::kind::{
    ARRAY, BOOLEAN, CHAR16, CLASS, DATETIME, NULL, OCTETS, REAL32, REAL64, REFERENCE, SINT64, STRING, UINT64,
};
use crate::record::write;

/// The name, kind and record of a property.
type Property = (String, u16, Vec<u8>);

#[derive(Clone)]
pub struct Setting {
    class: String,
    properties: Vec<Property>,
}

impl Setting {
    pub fn new(class: &str, properties: &[(&str, u16, Vec<u8>)]) -> Setting {
        let owned = |(name, kind, record): &(&str, u16, Vec<u8>)| (name.to_string(), *kind, record.clone());
        Setting { class: class.to_owned(), properties: properties.iter().map(owned).collect() }
    }

    /// The same with another record for one property.
    pub fn with(&self, name: &str, record: Vec<u8>) -> Setting {
        let mut out = self.clone();
        let property = out.properties.iter_mut().find(|p| p.0 == name);
        property.unwrap_or_else(|| panic!("no property {name}")).2 = record;
        out
    }

    /// The same with another kind and record for one property.
    pub fn of_kind(&self, name: &str, kind: u16, record: Vec<u8>) -> Setting {
        let mut out = self.with(name, record);
        let property = out.properties.iter_mut().find(|p| p.0 == name);
        property.unwrap_or_else(|| panic!("no property {name}")).1 = kind;
        out
    }

    pub fn table(&self) -> Vec<u8> {
        let mut out = write(CLASS, self.class.as_bytes());
        for (name, kind, _) in &self.properties {
            out.extend(write(*kind, name.as_bytes()));
        }
        out
    }

    pub fn instance(&self) -> Vec<u8> {
        self.properties.iter().flat_map(|p| p.2.clone()).collect()
    }

    pub fn ask<Q: AsRef<[u8]>>(&self, questions: &[(Q, Expected)]) -> Vec<Example> {
        let example = |(query, expected): &(Q, Expected)| Example {
            query: query.as_ref().to_vec(),
            table: self.table(),
            instance: self.instance(),
            expected: *expected,
        };
        questions.iter().map(example).collect()
    }
}

/// The class of 01's example, its integers of 02's types.
pub fn sample() -> Setting {
    Setting::new(
        "P",
        &[
            ("On", BOOLEAN, truth(true)),
            ("Temp", SINT64, sint64(-5)),
            ("Dev", ARRAY | UINT64, array(UINT64, &[uint64(3), uint64(14)])),
            ("Name", STRING, text("FAN_2")),
            ("Since", DATETIME, datetime("20051003112233.000000+000")),
            ("R", REAL64, real64(0.5)),
        ],
    )
}

/// A class with a scalar and an array of each type, of the integers those of 8 bytes, and with reserved words for names.
pub fn types() -> Setting {
    Setting::new(
        "P",
        &[
            ("B", BOOLEAN, truth(true)),
            ("U", UINT64, uint64(5)),
            ("I", SINT64, sint64(-5)),
            ("F", REAL32, real32(0.5)),
            ("D", REAL64, real64(0.5)),
            ("S", STRING, text("FAN_2")),
            ("C", CHAR16, char16(u16::from(b'x'))),
            ("O", OCTETS, octets(&[1, 2])),
            ("T", DATETIME, datetime("20051003112233.000000+000")),
            ("K", REFERENCE, reference("a/b")),
            ("Bs", ARRAY | BOOLEAN, array(BOOLEAN, &[truth(true), truth(false)])),
            ("Us", ARRAY | UINT64, array(UINT64, &[uint64(3), uint64(14)])),
            ("Is", ARRAY | SINT64, array(SINT64, &[sint64(-1), sint64(2)])),
            ("Fs", ARRAY | REAL32, array(REAL32, &[real32(0.5)])),
            ("Ds", ARRAY | REAL64, array(REAL64, &[real64(0.5), real64(1.5)])),
            ("Ss", ARRAY | STRING, array(STRING, &[text("a"), text("bc")])),
            ("Cs", ARRAY | CHAR16, array(CHAR16, &[char16(u16::from(b'a'))])),
            ("Os", ARRAY | OCTETS, array(OCTETS, &[octets(&[1]), octets(&[2, 3])])),
            ("Ts", ARRAY | DATETIME, array(DATETIME, &[datetime("20051003112233.000000+000")])),
            ("Ks", ARRAY | REFERENCE, array(REFERENCE, &[reference("k")])),
            ("And", UINT64, uint64(7)),
            ("Any", ARRAY | UINT64, array(UINT64, &[uint64(7)])),
            ("Null", STRING, text("n")),
            ("_x1", DATETIME, datetime("00000001000000.000000:000")),
        ],
    )
}

pub fn null() -> Vec<u8> {
    write(NULL, &[])
}

pub fn truth(x: bool) -> Vec<u8> {
    write(BOOLEAN, &[u8::from(x)])
}

pub fn uint64(n: u64) -> Vec<u8> {
    write(UINT64, &n.to_le_bytes())
}

pub fn sint64(n: i64) -> Vec<u8> {
    write(SINT64, &n.to_le_bytes())
}

pub fn real32(x: f32) -> Vec<u8> {
    write(REAL32, &x.to_le_bytes())
}

pub fn real64(x: f64) -> Vec<u8> {
    write(REAL64, &x.to_le_bytes())
}

pub fn text(s: &str) -> Vec<u8> {
    write(STRING, s.as_bytes())
}

pub fn char16(unit: u16) -> Vec<u8> {
    write(CHAR16, &unit.to_le_bytes())
}

pub fn octets(bytes: &[u8]) -> Vec<u8> {
    write(OCTETS, bytes)
}

pub fn datetime(s: &str) -> Vec<u8> {
    write(DATETIME, s.as_bytes())
}

pub fn reference(s: &str) -> Vec<u8> {
    write(REFERENCE, s.as_bytes())
}

/// An array of elements of this type.
pub fn array(kind: u16, elements: &[Vec<u8>]) -> Vec<u8> {
    write(ARRAY | kind, &elements.concat())
}
