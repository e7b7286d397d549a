//! Texts with the bytes that they stand for, and with what is wrong with them.

use fql::record::{ARRAY, INSTANCE, NULL};
use fql::types::{DATETIME, OCTETS};
use fqlrec::{read, show, Files};
use reference::examples::setting::{sample, types};
use reference::record::write;

const SAMPLE: &str = "\
class P
    On     boolean
    Temp   sint64
    Dev    uint64[]
    Name   string
    Since  datetime
    R      real64
instance
    On    = TRUE
    Temp  = -5
    Dev   = {3, 14}
    Name  = 'FAN_2'
    Since = '20051003112233.000000+000'
    R     = 0.5
instance
";

const TYPES: &str = "\
class P
    B     boolean
    U     uint64
    I     sint64
    F     real32
    D     real64
    S     string
    C     char16
    O     octets
    T     datetime
    K     reference
    Bs    boolean[]
    Us    uint64[]
    Is    sint64[]
    Fs    real32[]
    Ds    real64[]
    Ss    string[]
    Cs    char16[]
    Os    octets[]
    Ts    datetime[]
    Ks    reference[]
    And   uint64
    Any   uint64[]
    Null  string
    _x1   datetime
instance
    B    = TRUE
    U    = 5
    I    = -5
    F    = 0.5
    D    = 0.5
    S    = 'FAN_2'
    C    = 'x'
    O    = 0x0102
    T    = '20051003112233.000000+000'
    K    = 'a/b'
    Bs   = {TRUE, FALSE}
    Us   = {3, 14}
    Is   = {-1, 2}
    Fs   = {0.5}
    Ds   = {0.5, 1.5}
    Ss   = {'a', 'bc'}
    Cs   = {'a'}
    Os   = {0x01, 0x0203}
    Ts   = {'20051003112233.000000+000'}
    Ks   = {'k'}
    And  = 7
    Any  = {7}
    Null = 'n'
    _x1  = '00000001000000.000000:000'
";

fn instance(body: &[u8]) -> Vec<u8> {
    write(INSTANCE, body)
}

#[test]
fn of_the_sample() {
    let expected = Files { table: sample().table(), run: [instance(&sample().instance()), instance(&[])].concat() };
    assert_eq!(read(SAMPLE.as_bytes()).unwrap(), expected);
    assert_eq!(show(&expected), SAMPLE);
}

#[test]
fn of_every_type() {
    let expected = Files { table: types().table(), run: instance(&types().instance()) };
    assert_eq!(read(TYPES.as_bytes()).unwrap(), expected);
    assert_eq!(show(&expected), TYPES);
}

/// A text in any layout becomes the normal form.
#[test]
fn of_another_layout() {
    let text = "# a table\r\n\r\nclass P # its class\r\n\tOn boolean\r\n Dev   uint64 [ ] # numbers\n\n\
                instance# one\n  ON=TRUE\n\n# between\n\tdev = { 3,14 , NULL }\ninstance\n On = NULL # none\n Dev = {}";
    let normal = "\
class P
    On   boolean
    Dev  uint64[]
instance
    On  = TRUE
    Dev = {3, 14, NULL}
instance
    On  = NULL
    Dev = {}
";
    assert_eq!(show(&read(text.as_bytes()).unwrap()), normal);
}

/// The bytes of a value, as one of a property of this type.
fn value(kind: &str, text: &str) -> Vec<u8> {
    let text = format!("class P\n x {kind}\ninstance\n x = {text}\n");
    let files = read(text.as_bytes()).unwrap_or_else(|problem| panic!("{problem}\n{text}"));
    files.run[8..].to_vec()
}

/// How a value is shown; the text is the value's line.
fn shown(kind: &str, text: &str) -> String {
    let text = format!("class P\n x {kind}\ninstance\n x = {text}\n");
    show(&read(text.as_bytes()).unwrap()).lines().last().unwrap().trim().to_owned()
}

#[test]
fn of_integers() {
    assert_eq!(value("uint64", "18446744073709551615"), [255; 8]);
    assert_eq!(value("uint64", "258"), [2, 1, 0, 0, 0, 0, 0, 0]);
    assert_eq!(value("sint64", "-1"), [255; 8]);
    assert_eq!(value("sint64", "-9223372036854775808"), [0, 0, 0, 0, 0, 0, 0, 0x80]);
    assert_eq!(shown("sint64", "+5"), "x = 5");
}

#[test]
fn of_reals() {
    assert_eq!(value("real64", "0.1"), 0.1f64.to_le_bytes());
    assert_eq!(value("real32", "0.1"), 0.1f32.to_le_bytes());
    assert_eq!(value("real64", "0x7FF8000000000001"), 0x7ff8_0000_0000_0001u64.to_le_bytes());
    assert_eq!(value("real32", "0x7F800001"), 0x7f80_0001u32.to_le_bytes());
    for (kind, text, normal) in [
        ("real64", "3", "3.0"),
        ("real64", ".5", "0.5"),
        ("real64", "-0.0", "-0.0"),
        ("real64", "0x8000000000000000", "-0.0"),
        ("real64", "100000000000000000000000", "1e23"),
        ("real64", "0x0000000000000001", "5e-324"),
        ("real64", "0x7FF0000000000000", "0x7FF0000000000000"),
        ("real64", "0xfff8000000000000", "0xFFF8000000000000"),
        ("real32", "16777217", "16777216.0"),
        ("real32", "0x7F800000", "0x7F800000"),
        ("real32", "0x00000001", "1e-45"),
    ] {
        assert_eq!(shown(kind, text), format!("x = {normal}"), "{text}");
    }
}

#[test]
fn of_text() {
    assert_eq!(value("string", r"'it\'s \\ \b\t\n\f\r'"), b"it's \\ \x08\t\n\x0c\r");
    assert_eq!(value("string", r"'\u0041BC'"), "\u{41bc}".as_bytes());
    assert_eq!(value("string", r"'\u000041BC'"), b"ABC");
    assert_eq!(value("string", "'# no comment'"), b"# no comment");
    assert_eq!(value("string", "''"), b"");
    assert_eq!(value("datetime", "'soon'"), b"soon");
    assert_eq!(value("reference", "'\u{e9}'"), "\u{e9}".as_bytes());
    assert_eq!(value("char16", "'\u{e9}'"), [0xe9, 0]);
    assert_eq!(value("char16", r"'\uFFFF'"), [0xff, 0xff]);
    let hidden = r"x = '\u00001B\u00FEFF\u002028\u000080é'";
    assert_eq!(shown("string", r"'\u001B\uFEFF\u2028\u0080é'"), hidden);
}

/// Stars for unknown digits are stored as they are typed, well placed or not.
#[test]
fn of_datetimes() {
    let text = "\
class P
    Since   datetime
    Starts  datetime[]
instance
    Since  = '200510031122**.******+000'
    Starts = {'2005**********.******-060', NULL, '00000001******.******:000'}
instance
    Since  = '2005100311223*.******+***'
    Starts = {}
";
    let files = read(text.as_bytes()).unwrap();
    let starts = [
        write(DATETIME, b"2005**********.******-060"),
        write(NULL, b""),
        write(DATETIME, b"00000001******.******:000"),
    ];
    let first = [write(DATETIME, b"200510031122**.******+000"), write(ARRAY | DATETIME, &starts.concat())].concat();
    let second = [write(DATETIME, b"2005100311223*.******+***"), write(ARRAY | DATETIME, b"")].concat();
    assert_eq!(files.run, [instance(&first), instance(&second)].concat());
    assert_eq!(show(&files), text);
}

#[test]
fn of_octets() {
    assert_eq!(value("octets", "0x"), b"");
    assert_eq!(value("octets", "0x00fF"), [0, 255]);
    assert_eq!(value("octets[]", "{0x, 0xAB}"), [write(OCTETS, b""), write(OCTETS, b"\xab")].concat());
}

/// Names that are also words of the text.
#[test]
fn of_properties_called_record_and_bytes() {
    let text = "\
class instance
    record  uint64
    bytes   string[]
    class   boolean
instance
    record = 1
    bytes  = {'a'}
    class  = TRUE
    record 0x0001 00
    bytes AB
";
    assert_eq!(show(&read(text.as_bytes()).unwrap()), text);
}

/// What has no words is written as records and bytes.
#[test]
fn of_malformed_tables_and_runs() {
    let text = "\
table
    record 0x0200 3132
    On  boolean
    record 0x000B 4F6E
    bytes 050001
instance
    record 0x0001 01
    On = TRUE
    record 0x0001 01
    record 0x1234
    bytes 01
record 0x0301 0A0B
bytes 0500000301
";
    assert_eq!(show(&read(text.as_bytes()).unwrap()), text);
}

#[test]
fn a_class_by_its_bytes_is_a_class() {
    let text = "table\n record 0x0200 50\n On boolean\ninstance\n On = TRUE\n";
    assert_eq!(show(&read(text.as_bytes()).unwrap()), "class P\n    On  boolean\ninstance\n    On = TRUE\n");
}

fn problem(text: &str) -> String {
    match read(text.as_bytes()) {
        Err(problem) => problem.to_string(),
        Ok(files) => panic!("{text}\nis read as {files:?}"),
    }
}

#[test]
fn places_of_problems_in_lines() {
    for (text, start) in [
        ("class\n", "1:6: a name "),
        ("class 1x\n", "1:7: a name "),
        ("class P Q\n", "1:9: nothing more"),
        ("class P\nclass Q\n", "2:1: the table comes once"),
        ("instance\ntable\n", "2:1: the table comes once"),
        ("  On boolean\n", "1:3: an indented line needs"),
        ("record 0x0001\n  On = 1\n", "2:3: an indented line needs"),
        ("clas P\n", "1:1: a line that isn't indented"),
        ("class P\n    On bool\n", "2:8: a type is needed here: boolean, uint8, "),
        ("class P\n    On boolean[\n", "2:16: `]` is missing"),
        ("class P\n    On boolean]\n", "2:15: nothing more"),
        ("class P\n    -\n", "2:5: a name "),
        ("class P\n    record 0x1 00\n", "2:12: `0x` and 4 hex digits"),
        ("class P\n    bytes 0AB\n", "2:11: hex digits come in pairs"),
        ("class P\n    bytes 0G\n", "2:12: this is no hex digit"),
        ("class P\n    bytes 00\n    On boolean\n", "3:5: nothing can follow"),
        ("bytes 00\ninstance\n", "2:1: nothing can follow"),
        ("instance 1\n", "1:10: nothing more"),
        ("instance\n bytes 00\n record 0x0000\n", "3:2: nothing can follow"),
    ] {
        assert!(problem(text).starts_with(start), "{text}\n{}", problem(text));
    }
    let long = "x".repeat(65);
    assert!(problem(&format!("class {long}\n")).starts_with("1:7: a name"));
}

#[test]
fn places_of_problems_in_instances() {
    let table = "class P\n On boolean\n Dev uint64[]\n Name string\n record 0x000B 41\n";
    for (line, start) in [
        (" Dev = {}", "7:2: `On` comes next in the table's order, not `Dev`"),
        (" On TRUE", "7:5: `=` is missing"),
        (" On = 1", "7:7: TRUE, FALSE or NULL"),
        (" On = TRUE FALSE", "7:12: nothing more"),
        (" On = NULL\n Dev = 3", "8:8: `{` is missing"),
        (" On = NULL\n Dev = {3", "8:10: `,` is missing"),
        (" On = NULL\n Dev = {3,}", "8:11: a whole number"),
        (" On = NULL\n Dev = {-3}", "8:9: a whole number from 0"),
        (" On = NULL\n Dev = {18446744073709551616}", "8:9: a whole number from 0"),
        (" On = NULL\n Dev = NULL\n Name = x", "9:9: text between"),
        (" On = NULL\n Dev = NULL\n Name = 'é\\x'", "9:11: this is no escape"),
        (" On = NULL\n Dev = NULL\n Name = '\\u12'", "9:10: this is no escape"),
        (" On = NULL\n Dev = NULL\n Name = '\\uD800'", "9:10: this is no escape"),
        (" On = NULL\n Dev = NULL\n Name = 'x", "9:9: this text has no end"),
        (" On = NULL\n Dev = NULL\n Name = ''\n A = 1", "10:2: the table's record for this is no property"),
        (" record 0x0001\n record 0x0001\n record 0x0001\n record 0x0001\n A = 1", "11:2: the table has no further"),
    ] {
        let text = format!("{table}instance\n{line}\n");
        assert!(problem(&text).starts_with(start), "{text}\n{}", problem(&text));
    }
}

#[test]
fn places_of_problems_in_values() {
    for (kind, text, what) in [
        ("sint64", "9223372036854775808", "a whole number from -9223372036854775808"),
        ("sint64", "1.0", "a whole number from -9223372036854775808"),
        ("real64", "inf", "a number that is finite, or `0x` and the bits in 16 hex digits,"),
        ("real64", "NaN", "a number that is finite"),
        ("real64", "1e999", "a number that is finite"),
        ("real64", "0x7F800000", "`0x` and 16 hex digits"),
        ("real32", "1e39", "a number that is finite, or `0x` and the bits in 8 hex digits,"),
        ("real32", "0x7FF0000000000000", "`0x` and 8 hex digits"),
        ("char16", "''", "one character up to U+FFFF"),
        ("char16", "'ab'", "one character up to U+FFFF"),
        ("char16", "'\u{1d11e}'", "one character up to U+FFFF"),
        ("octets", "0A", "`0x` and pairs"),
        ("octets", "", "`0x` and pairs"),
        ("boolean", "true", "TRUE, FALSE or NULL"),
        ("boolean", "NULLS", "TRUE, FALSE or NULL"),
    ] {
        let found = problem(&format!("class P\n x {kind}\ninstance\n x = {text}\n"));
        assert!(found.starts_with(&format!("4:6: {what}")), "{kind} {text}: {found}");
    }
    assert_eq!(
        problem("class P\n x octets\ninstance\n x = 0x0\n"),
        "4:8: hex digits come in pairs, and the last of these stands alone"
    );
}

#[test]
fn bodies_that_no_record_holds() {
    let long = "x".repeat(65_536);
    let text = format!("class P\n S string\ninstance\n S = '{long}'\n");
    assert_eq!(problem(&text), "4:6: this has 65536 bytes, and a record holds 65535");
    let text = format!("class P\n S string\ninstance\n S = '{}'\n", &long[..65_532]);
    assert_eq!(problem(&text), "3:1: this has 65536 bytes, and a record holds 65535");
    let text = format!("record 0x0001 {}\n", "00".repeat(65_536));
    assert_eq!(problem(&text), "1:15: this has 65536 bytes, and a record holds 65535");
}

#[test]
fn a_text_that_is_not_utf_8() {
    let problem = read(b"class P\n S string # \xc3\xa9 \xff\n").unwrap_err();
    assert_eq!(problem.to_string(), "2:15: the text is not UTF-8 here");
}
