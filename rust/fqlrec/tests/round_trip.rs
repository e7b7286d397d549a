//! Bytes to text and back give the same bytes, whatever they are; text to bytes and back gives the normal form.

use fql::record::{ARRAY, CLASS, INSTANCE, NULL};
use fql::types::{BOOLEAN, CHAR16, DATETIME, OCTETS, REAL32, REAL64, REFERENCE, STRING};
use fql::types::{SINT16, SINT32, SINT64, SINT8, UINT16, UINT32, UINT64, UINT8};
use fqlrec::{read, show, Files};
use reference::cases::{self, run};
use reference::examples::setting::{sample, types};
use reference::random::{for_each_seed, Random};
use reference::record::write;

fn round_trip(table: &[u8], run: &[u8]) -> String {
    let files = Files { table: table.to_vec(), run: run.to_vec() };
    let text = show(&files);
    let again = read(text.as_bytes()).unwrap_or_else(|problem| panic!("{problem}\n{text}"));
    assert_eq!(again, files, "{text}");
    assert_eq!(show(&again), text);
    text
}

fn instance(body: &[u8]) -> Vec<u8> {
    write(INSTANCE, body)
}

fn runs(r: &mut Random) {
    let mut with_words = 0;
    for _ in 0..1_500 {
        let case = run::random(r);
        let text = round_trip(&case.table, &case.run);
        with_words += usize::from(text.starts_with("class") && text.contains(" = "));
        round_trip(&r.damage(&case.table), &r.damage(&case.run));
    }
    assert!(with_words >= 1_000, "only {with_words} texts have words for their bytes");
}

#[test]
fn of_random_and_damaged_runs() {
    for_each_seed(runs);
}

fn instances(r: &mut Random) {
    for _ in 0..1_500 {
        let case = cases::random(r);
        if case.instance.len() < 65_500 {
            round_trip(&case.table, &instance(&case.instance));
            let damaged = r.damage(&case.instance);
            round_trip(&case.table, &[instance(&damaged), instance(&case.instance)].concat());
        }
    }
}

#[test]
fn of_random_and_damaged_instances() {
    for_each_seed(instances);
}

/// Bytes of which lengths, kinds and names are made.
const SMALL: [u8; 19] = [0, 0, 0, 0, 1, 2, 3, 6, 8, 0x11, 0x12, 0x14, 0x18, 0x21, 0x22, 0x24, 0x28, b'A', b'_'];

fn bytes(r: &mut Random) {
    let bytes = |r: &mut Random| -> Vec<u8> {
        let n = r.below(40);
        (0..n).map(|_| if r.chance(3) { r.byte() } else { r.pick(&SMALL) }).collect()
    };
    for _ in 0..5_000 {
        let (table, run, body) = (bytes(r), bytes(r), bytes(r));
        round_trip(&table, &run);
        round_trip(&table, &instance(&body));
        round_trip(&types().table(), &[instance(&body), run].concat());
    }
}

#[test]
fn of_random_bytes() {
    for_each_seed(bytes);
}

/// Each record of the instance, with random bodies of the right and of the wrong length.
fn values(r: &mut Random) {
    let integers = [UINT8, UINT16, UINT32, UINT64, SINT8, SINT16, SINT32, SINT64];
    let others = [BOOLEAN, REAL32, REAL64, STRING, CHAR16, OCTETS, DATETIME, REFERENCE, 2, 3];
    for _ in 0..8_000 {
        let kind = if r.chance(2) { r.pick(&integers) } else { r.pick(&others) };
        let n = r.pick(&[0, 1, 1, 2, 2, 3, 4, 4, 8, 8, 9, 25]);
        let body: Vec<u8> = (0..n).map(|_| if r.chance(2) { r.byte() } else { r.pick(&[0, 1, 0x7f, 0xff]) }).collect();
        let scalar = write(kind, &body);
        let array = write(kind | ARRAY, &[scalar.clone(), write(NULL, &[]), scalar.clone()].concat());
        let table = [write(CLASS, b"P"), write(kind, b"x"), write(kind | ARRAY, b"xs")].concat();
        round_trip(&table, &instance(&[scalar, array].concat()));
    }
}

#[test]
fn of_values_of_every_type() {
    for_each_seed(values);
}

/// The same lines with other blanks, and with comments and empty lines.
fn in_another_layout(r: &mut Random, text: &str) -> String {
    let mut out = String::new();
    for line in text.lines() {
        let inner = line.trim_start();
        if inner.len() < line.len() {
            out += r.pick(&[" ", "\t", "    ", "  \t  "]);
        }
        out += inner;
        out += r.pick(&["\n", "\r\n", " \n", "# a comment\n", " # it's another\n\n", "\n    # one by itself\n\t\n"]);
    }
    out
}

fn layouts(r: &mut Random) {
    for _ in 0..400 {
        let case = run::random(r);
        let text = show(&Files { table: case.table, run: case.run });
        let other = in_another_layout(r, &text);
        let files = read(other.as_bytes()).unwrap_or_else(|problem| panic!("{problem}\n{other}"));
        assert_eq!(show(&files), text);
    }
}

#[test]
fn of_texts_in_another_layout() {
    for_each_seed(layouts);
}

/// A damaged text is read, or has a problem at a place that is there.
fn texts(r: &mut Random) {
    let (mut good, mut bad) = (0, 0);
    for _ in 0..2_500 {
        let case = cases::random(r);
        let instance = if case.instance.len() < 2_000 { instance(&case.instance) } else { vec![] };
        let text = show(&Files { table: case.table, run: instance });
        let damaged = r.damage(text.as_bytes());
        match read(&damaged) {
            Ok(files) => {
                good += 1;
                round_trip(&files.table, &files.run);
            }
            Err(problem) => {
                bad += 1;
                let line = damaged.split(|b| *b == b'\n').nth(problem.line - 1).expect("a line that is there");
                assert!((1..=line.len() + 1).contains(&problem.column), "{problem}");
            }
        }
    }
    assert!(good >= 100 && bad >= 100, "{good} read, {bad} not");
}

#[test]
fn of_damaged_texts() {
    for_each_seed(texts);
}

/// Every kind of empty, and a whole that is broken at each byte.
#[test]
fn of_cut_files() {
    assert_eq!(round_trip(&[], &[]), "");
    assert_eq!(round_trip(&[], &instance(&[])), "instance\n");
    let run = [instance(&sample().instance()), instance(&types().instance())].concat();
    for cut in 0..=run.len() {
        round_trip(&sample().table(), &run[..cut]);
    }
    for cut in 0..=types().table().len() {
        round_trip(&types().table()[..cut], &run);
    }
}

#[test]
fn of_the_longest_records() {
    let longest = write(STRING, "x".repeat(65_531).as_bytes());
    round_trip(&[write(CLASS, b"P"), write(STRING, b"S")].concat(), &instance(&longest));
    round_trip(&write(0xffff, &vec![0xff; 65_535]), &write(BOOLEAN, &vec![1; 65_535]));
}
