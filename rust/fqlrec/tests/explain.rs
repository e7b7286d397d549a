//! What an operator is told of a query, a table and a run.

use fql::record::INSTANCE;
use fql::types::{BOOLEAN, STRING};
use fqlrec::{explain, read, Files};
use reference::cases::run::{random, RunCase};
use reference::examples::{named, programs};
use reference::named_properties;
use reference::program::output;
use reference::random::for_each_seed;
use reference::record::{write, Table};

const TEXT: &str = "\
class P
    On    boolean
    Temp  sint64
    Name  string
instance
    On   = TRUE
    Temp = -5
    Name = 'FAN_2'
";

fn files() -> Files {
    read(TEXT.as_bytes()).unwrap()
}

fn refused(query: &str, files: &Files) -> String {
    let explanation = explain(query.as_bytes(), &files.table, &files.run);
    assert!(!explanation.accepted, "{}", explanation.text);
    explanation.text
}

#[test]
fn an_accepted_query() {
    let Files { table, run } = files();
    let explanation = explain(b"On = TRUE", &table, &run);
    assert!(explanation.accepted);
    assert_eq!(explanation.text, "accepted\nnames On\n1 included, 0 excluded, 0 failed\n");
}

/// The names of properties, by their numbers.
fn names<'a>(table: &[u8], numbers: impl IntoIterator<Item = &'a usize>) -> String {
    let properties = Table::read(table).unwrap().properties;
    let name = |&n: &usize| String::from_utf8(properties[n].name.clone()).unwrap();
    numbers.into_iter().map(name).collect::<Vec<_>>().join(", ")
}

#[test]
fn the_properties_that_count() {
    for e in named::of_accepted_queries() {
        let told = explain(&e.query, &e.table, &[]).text;
        assert_eq!(told, format!("accepted\nnames {}\n0 included, 0 excluded, 0 failed\n", names(&e.table, &e.named)));
    }
}

#[test]
fn places_in_the_query() {
    assert_eq!(
        refused("Temp < 18446744073709551616", &files()),
        "\
refused 23 at 7: this literal or index is out of range
query, line 1, column 8:
    Temp < 18446744073709551616
           ^
"
    );
    assert_eq!(
        refused("Name = '\u{4e2d}' AND\n\tOn = TRUE OR Zed = 1\n", &files()),
        "\
refused 20 at 31: the table has no such property
query, line 2, column 22:
            On = TRUE OR Zed = 1
                         ^
"
    );
    assert_eq!(
        refused("On = TRUE AND", &files()),
        "\
refused 11 at 13: this is no token, or no query can have it here
query, line 1, column 14, the query's end:
    On = TRUE AND
                 ^
"
    );
}

#[test]
fn an_end_after_a_line_break() {
    assert_eq!(
        refused("On = TRUE AND\n", &files()),
        "\
refused 11 at 14: this is no token, or no query can have it here
query, line 2, column 1, the query's end:
    On = TRUE AND

    ^
"
    );
}

#[test]
fn a_query_that_is_not_utf_8() {
    let Files { table, run } = files();
    let explanation = explain(b"On = TRUE\xc3", &table, &run);
    assert_eq!(
        explanation.text,
        "\
refused 10 at 9: the query is not UTF-8 here
query, line 1, column 10:
    On = TRUE\\xc3
             ^
"
    );
}

/// A minute, the hour that it is in, and a minute whose offset has stars.
const TIMES: &str = "\
class P
    Since  datetime
instance
    Since = '200510031122**.******+000'
instance
    Since = '2005100311****.******+000'
instance
    Since = '200510031122**.******+***'
";

#[test]
fn unknown_digits() {
    let files = read(TIMES.as_bytes()).unwrap();
    let explanation = explain(b"Since < '20051003112300.000000+000'", &files.table, &files.run);
    assert!(explanation.accepted);
    assert_eq!(
        explanation.text,
        "\
accepted
names Since
1 included, 1 excluded, 1 failed
instance 3, at byte 66 of the run: refused 31 at 0: the instance's record here isn't the one that the table asks for
    asked for: Since  datetime
    found:     Since = '200510031122**.******+***'
"
    );
    assert_eq!(
        refused("Since = NULL OR\nSince > '2005100311223*.******+000'", &files),
        "\
refused 25 at 24: this datetime literal is malformed
query, line 2, column 9:
    Since > '2005100311223*.******+000'
            ^
"
    );
}

/// The lines after the first, which has number, place and cause.
fn details(files: &Files) -> String {
    refused("On = TRUE", files).split_once('\n').unwrap().1.to_owned()
}

#[test]
fn records_of_the_table() {
    let with = |tail: &[u8]| Files { table: [&files().table[..], tail].concat(), ..files() };
    let (temp, unknown) = (write(STRING, b"TEMP"), write(11, b"x"));
    assert_eq!(details(&with(&temp)), "table, record 5, at byte 27:\n    TEMP  string\n");
    assert_eq!(details(&with(&unknown)), "table, record 5, at byte 27:\n    record 0x000B 78\n");
    assert_eq!(details(&with(&write(2, b"x"))), "table, record 5, at byte 27:\n    record 0x0002 78\n");
    assert_eq!(
        details(&with(&[5, 0, 1, 0, b'x'])),
        "table, record 5, at byte 27:\n    bytes 0500010078 (a body of 5 bytes, 1 present)\n"
    );
    assert_eq!(
        details(&with(&[5, 0])),
        "table, record 5, at byte 27:\n    bytes 0500 (length and kind are 4 bytes, 2 present)\n"
    );
    assert_eq!(details(&Files::default()), "table, record 1, at byte 0:\n    nothing, the bytes end here\n");
    assert_eq!(details(&with(&[0; 8_200])), "table: it has 8227 bytes\n");
}

#[test]
fn records_of_the_run() {
    let with = |tail: &[u8]| Files { run: [&files().run[..], tail].concat(), ..files() };
    let length = files().run.len();
    assert_eq!(
        details(&with(&write(INSTANCE + 1, b"x"))),
        format!("run, record 2, at byte {length}:\n    record 0x0301 78\n")
    );
    let long = details(&with(&write(BOOLEAN, &[0; 1_000])));
    assert_eq!(long, format!("run, record 2, at byte {length}:\n    record 0x0001 {}...\n", "0".repeat(86)));
    let too_long = with(&vec![0; 70_000]);
    assert!(refused("On = TRUE", &too_long).starts_with("refused 40 at 65536: "));
    assert_eq!(details(&too_long), format!("run: it has {} bytes, and the program takes 65536\n", length + 70_000));
}

#[test]
fn instances_that_fail() {
    let text = format!("{TEXT}instance\n On = TRUE\n record 0x0028 00\ninstance\n On = NULL\ninstance\n bytes 01\n");
    let Files { table, run } = read(text.as_bytes()).unwrap();
    let explanation = explain(b"On = TRUE", &table, &run);
    assert!(explanation.accepted);
    let words = "the instance's record here isn't the one that the table asks for";
    assert_eq!(
        explanation.text,
        format!(
            "\
accepted
names On
1 included, 0 excluded, 3 failed
instance 2, at byte 30 of the run: refused 31 at 5: {words}
    asked for: Temp  sint64
    found:     record 0x0028 00
instance 3, at byte 44 of the run: refused 31 at 4: {words}
    asked for: Temp  sint64
    found:     nothing, the bytes end here
instance 4, at byte 52 of the run: refused 31 at 0: {words}
    asked for: On  boolean
    found:     bytes 01 (length and kind are 4 bytes, 1 present)
"
        )
    );
}

#[test]
fn a_subclass_record_that_is_cut() {
    let Files { table, .. } = files();
    let text = format!("{TEXT}    bytes 0500");
    let Files { run, .. } = read(text.as_bytes()).unwrap();
    let told = explain(b"On = TRUE", &table, &run).text;
    assert!(told.contains("    asked for: a whole record\n    found:     bytes 0500 ("), "{told}");
}

/// Number and place are the program's, and the names those that the second evaluator finds.
fn hold_to_program(files: &reference::program::Files) {
    let explanation = explain(&files.query, &files.table, &files.run);
    let lines = output(files);
    let expected = match lines.strip_prefix("refused ") {
        Some(rest) => format!("refused {}: ", rest.trim_end().replace(' ', " at ")),
        None => format!("accepted\nnames {}\n", names(&files.table, &named_properties(&files.query, &files.table))),
    };
    assert_eq!(explanation.accepted, !lines.starts_with("refused"));
    assert!(explanation.text.starts_with(&expected), "{expected}\n{}", explanation.text);
    assert_eq!(explanation.text.matches("\ninstance ").count(), lines.matches(" failed 31\n").count());
}

#[test]
fn of_the_program_s_examples() {
    programs::examples().iter().for_each(|e| hold_to_program(&e.files));
}

#[test]
fn of_random_files() {
    for_each_seed(|r| {
        for _ in 0..2_000 {
            let RunCase { table, query, run, .. } = random(r);
            hold_to_program(&reference::program::Files { table, query, run });
        }
    });
}
