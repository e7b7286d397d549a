//! What the sample class doesn't have: NULLs, instances that don't conform, properties beside each other, texts beyond
//! ASCII, and arrays of texts.

use super::{Filter, Setting};
use reference::kind::{ARRAY, DATETIME, NULL, SINT32, STRING};
use reference::record::write;

const INSTANCES: usize = 1_000;

pub fn others() -> Vec<(Setting, Filter)> {
    let nulls = Filter::new("NULLs", "Temp > 0 OR Since = NULL", Some("Temp > 0 OR Since IS NULL"));
    let beside = Filter::alike("property beside property", "A < B AND S = T OR D <= E");
    let like = Filter::new("LIKE beyond ASCII", "Name LIKE 'ВЕНТИЛЯТОР_.*'", Some("Name GLOB 'ВЕНТИЛЯТОР_*'"));
    vec![
        (with_nulls(), nulls),
        (nonconforming(), Filter::new("nonconforming, every second", "Temp > 0", None)),
        (pairs(), beside),
        (beyond_ascii(), like),
        (beyond_ascii(), Filter::alike("text equality beyond ASCII", "Name = 'ВЕНТИЛЯТОР_7'")),
        (arrays_of_texts(), Filter::new("ANY of texts", "ANY Tags = 'room 7'", None)),
        (arrays_of_texts(), Filter::new("EVERY of texts", "EVERY Tags <> 'room 7'", None)),
        (arrays_of_texts(), Filter::new("array of texts", "Tags = {'floor 3','room 7','fan'}", None)),
    ]
}

fn datetime(x: u64) -> Vec<u8> {
    write(DATETIME, format!("2005{:02}03112233.000000+000", 1 + x % 12).as_bytes())
}

fn integer(n: i32) -> Vec<u8> {
    write(SINT32, &n.to_le_bytes())
}

fn text(text: &str) -> Vec<u8> {
    write(STRING, text.as_bytes())
}

const READING: [(u16, &str); 3] = [(SINT32, "Temp"), (STRING, "Name"), (DATETIME, "Since")];

/// Of each property a third.
fn with_nulls() -> Setting {
    Setting::new(&READING, INSTANCES, |x| {
        let records = [integer((x % 101) as i32 - 50), text(&format!("FAN_{}", x % 1000)), datetime(x)];
        let or_null = |(n, record): (u64, Vec<u8>)| if (x >> n).is_multiple_of(3) { write(NULL, b"") } else { record };
        (0..).zip(records).flat_map(or_null).collect()
    })
}

/// The month of every second datetime is 13.
fn nonconforming() -> Setting {
    Setting::new(&READING, INSTANCES, |x| {
        let since = if x.is_multiple_of(2) { write(DATETIME, b"20051303112233.000000+000") } else { datetime(x) };
        [integer((x % 101) as i32 - 50), text(&format!("FAN_{}", x % 1000)), since].concat()
    })
}

fn pairs() -> Setting {
    let kinds = [(SINT32, "A"), (SINT32, "B"), (STRING, "S"), (STRING, "T"), (DATETIME, "D"), (DATETIME, "E")];
    Setting::new(&kinds, INSTANCES, |x| {
        let texts = [text(&format!("FAN_{}", x % 7)), text(&format!("FAN_{}", x % 5))];
        let numbers = [integer((x % 13) as i32), integer((x % 11) as i32)];
        [numbers.concat(), texts.concat(), datetime(x), datetime(x / 16)].concat()
    })
}

fn beyond_ascii() -> Setting {
    Setting::new(&READING, INSTANCES, |x| {
        let name = if x.is_multiple_of(2) { "ВЕНТИЛЯТОР" } else { "НАСОС" };
        [integer((x % 101) as i32 - 50), text(&format!("{name}_{}", x % 10)), datetime(x)].concat()
    })
}

fn arrays_of_texts() -> Setting {
    Setting::new(&[(ARRAY | STRING, "Tags")], INSTANCES, |x| {
        let tags = [
            format!("floor {}", x % 4),
            format!("room {}", if x.is_multiple_of(2) { 7 } else { x % 10 }),
            "fan".into(),
        ];
        write(ARRAY | STRING, &tags.map(|tag| text(&tag)).concat())
    })
}
