//! The sample class of six properties, with nothing or with much behind them.

use super::Setting;
use reference::kind::{ARRAY, BOOLEAN, DATETIME, REAL64, SINT64, STRING, UINT64};
use reference::record::write;

const SAMPLE: [(u16, &str); 6] =
    [(BOOLEAN, "On"), (SINT64, "Temp"), (ARRAY | UINT64, "Dev"), (STRING, "Name"), (DATETIME, "Since"), (REAL64, "R")];

/// The names of further properties.
fn numbered(count: usize) -> Vec<String> {
    (0..count).map(|n| format!("Further{n}")).collect()
}

/// The sample class, and strings of 40 characters behind it: instances of about a hundred bytes without any.
pub fn setting(further: usize, instances: usize) -> Setting {
    let names = numbered(further);
    let behind = names.iter().map(|name| (STRING, name.as_str()));
    let properties: Vec<(u16, &str)> = SAMPLE.into_iter().chain(behind).collect();
    let strings = write(STRING, b"a string of forty characters, or nearly.").repeat(further);
    Setting::new(&properties, instances, |x| [records(x), strings.clone()].concat())
}

/// The table of the sample class alone.
pub fn table() -> Vec<u8> {
    setting(0, 0).table
}

/// `Temp` as the last of 128 integers; the others are above 0 where it isn't, so that `Temp > 0`, read from one of
/// them, leaves other marks.
pub fn late(instances: usize) -> Setting {
    const BEFORE: usize = 127;
    let names = numbered(BEFORE);
    let before = names.iter().map(|name| (SINT64, name.as_str()));
    let properties: Vec<(u16, &str)> = before.chain([(SINT64, "Temp")]).collect();
    Setting::new(&properties, instances, |x| {
        let others = write(SINT64, &(1 - temp(x)).to_le_bytes()).repeat(BEFORE);
        [others, write(SINT64, &temp(x).to_le_bytes())].concat()
    })
}

fn temp(x: u64) -> i64 {
    (x % 101) as i64 - 50
}

/// Values that a filter of each kind includes about half the time.
fn records(x: u64) -> Vec<u8> {
    let dev = if x.is_multiple_of(3) { vec![3, 14] } else { vec![3, 15, x % 20] };
    let dev: Vec<u8> = dev.iter().flat_map(|n: &u64| write(UINT64, &n.to_le_bytes())).collect();
    let name = format!("{}_{}", if x.is_multiple_of(2) { "FAN" } else { "PUMP" }, x % 1000);
    let since = format!("2005{:02}03112233.000000+000", 1 + x % 12);
    let r = (x % 100) as f64 / 100.0;
    [
        write(BOOLEAN, &[u8::from(x.is_multiple_of(2))]),
        write(SINT64, &temp(x).to_le_bytes()),
        write(ARRAY | UINT64, &dev),
        write(STRING, name.as_bytes()),
        write(DATETIME, since.as_bytes()),
        write(REAL64, &r.to_le_bytes()),
    ]
    .concat()
}
