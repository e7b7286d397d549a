//! Rows, operators and shapes (01, "Kinds"; numbers 21 and 22).

use super::setting::{null, sample, types};
use super::Example;
use super::Expected::{self, Accepted, Excluded, Included, Refused};

/// A property of each type in order, of the integers those of 8 bytes; its array has an `s` after it.
const NAMES: [&str; 10] = ["B", "U", "I", "F", "D", "S", "C", "O", "T", "K"];
const ROWS: [&str; 7] = ["B", "UI", "FD", "SC", "O", "T", "K"];
const ORDERED: &str = "UIFDT";

/// Literals, and the properties that they fit.
const LITERALS: [(&str, &str); 14] = [
    ("TRUE", "B"),
    ("false", "B"),
    ("5", "UI"),
    ("-5", "UI"),
    ("101B", "UI"),
    ("+1B", "UI"),
    ("0x05", "UIO"),
    ("-0x05", "UI"),
    ("+0x05", "UI"),
    (".5", "FD"),
    ("'20051003112233.000000+000'", "SCTK"),
    ("'200510031122**.******+000'", "SCTK"),
    ("'x'", "SCK"),
    ("NULL", "BUIFDSCOTK"),
];

pub fn examples() -> Vec<Example> {
    let mut out = properties();
    out.extend(literals());
    out.extend(likes());
    out.extend(shapes());
    out.extend(shapes_before_kinds());
    out.extend(array_literals());
    out.extend(operators());
    out
}

fn when(rule: bool, number: u64) -> Expected {
    if rule {
        Accepted
    } else {
        Refused(number, 0)
    }
}

/// Every property beside every other, scalars and arrays.
fn properties() -> Vec<Example> {
    let mut asked = Vec::new();
    for a in NAMES {
        for b in NAMES {
            let same = ROWS.iter().any(|row| row.contains(a) && row.contains(b));
            let ordered = same && ORDERED.contains(a);
            asked.push((format!("{a} = {b}"), when(same, 21)));
            asked.push((format!("{a} < {b}"), when(ordered, 21)));
            asked.push((format!("{a}s <> {b}s"), when(same, 21)));
            asked.push((format!("{a}s >= {b}s"), Refused(21, 0)));
            asked.push((format!("{a}s[0] <> {b}"), when(same, 21)));
            asked.push((format!("{a}s[0] > {b}s[1]"), when(ordered, 21)));
            asked.push((format!("ANY {a}s = {b}s[0]"), when(same, 21)));
            asked.push((format!("NOT EVERY {a}s <= {b}"), when(ordered, 21)));
            asked.push((format!("{a} = {b}s"), Refused(22, 0)));
            asked.push((format!("{a}s = {b}"), Refused(22, 0)));
            asked.push((format!("{a}s < {b}"), Refused(22, 0)));
            asked.push((format!("EVERY {a}s = {b}s"), Refused(22, 0)));
            asked.push((format!("{a}s[0] = {b}s"), Refused(22, 0)));
            asked.push((format!("{a}s[0] = {b}[0]"), Refused(22, 0)));
        }
    }
    types().ask(&asked)
}

/// Every property beside every sort of literal. A text that is no datetime is of the right kind there, and 25.
fn literals() -> Vec<Example> {
    let mut asked = Vec::new();
    for name in NAMES {
        for (literal, fitting) in LITERALS {
            let expected = |place: u64| match (name, literal) {
                ("T", "'x'") => Refused(25, place),
                _ => when(fitting.contains(name), 21),
            };
            let ordered = match (ORDERED.contains(name) && literal != "NULL", expected(4)) {
                (false, _) => Refused(21, 0),
                (true, expected) => expected,
            };
            asked.push((format!("{name} = {literal}"), expected(4)));
            asked.push((format!("{name} < {literal}"), ordered));
            asked.push((format!("{name}s = {{{literal}}}"), expected(6)));
            asked.push((format!("{name}s <> {{NULL,{literal}}}"), expected(12)));
            asked.push((format!("{name}s[0] = {literal}"), expected(8)));
            asked.push((format!("ANY {name}s <> {literal}"), expected(10)));
            asked.push((format!("{name}s = {literal}"), Refused(22, 0)));
            asked.push((format!("{name} = {{{literal}}}"), Refused(22, 0)));
            asked.push((format!("ANY {name} = {literal}"), Refused(22, 0)));
            asked.push((format!("{name}[1] = {literal}"), Refused(22, 0)));
        }
    }
    types().ask(&asked)
}

fn likes() -> Vec<Example> {
    let mut asked = Vec::new();
    for name in NAMES {
        let expected = when("SC".contains(name), 21);
        asked.push((format!("{name} LIKE 'x'"), expected));
        asked.push((format!("{name}s[1] NOT LIKE 'x'"), expected));
        asked.push((format!("{name}s LIKE 'x'"), Refused(22, 0)));
        asked.push((format!("{name}[0] LIKE 'x'"), Refused(22, 0)));
        asked.push((format!("{name} LIKE '('"), if expected == Accepted { Refused(24, 7) } else { expected }));
    }
    types().ask(&asked)
}

fn shapes() -> Vec<Example> {
    sample().ask(&[
        ("Dev = NULL", Refused(22, 0)),
        ("Dev <> NULL", Refused(22, 0)),
        ("Dev < NULL", Refused(22, 0)),
        ("Dev = 3", Refused(22, 0)),
        ("Dev = Temp", Refused(22, 0)),
        ("Dev < Temp", Refused(22, 0)),
        ("Temp = Dev", Refused(22, 0)),
        ("Temp = {}", Refused(22, 0)),
        ("Temp = {1}", Refused(22, 0)),
        ("Temp[0] = 1", Refused(22, 0)),
        ("ANY Temp = 1", Refused(22, 0)),
        ("NOT EVERY Temp = 1", Refused(22, 0)),
        ("Dev[0] = Dev", Refused(22, 0)),
        ("ANY Dev = Dev", Refused(22, 0)),
        ("ANY Dev = Temp[0]", Refused(22, 0)),
        ("Dev LIKE 'x'", Refused(22, 0)),
        ("Name[0] LIKE 'x'", Refused(22, 0)),
        ("Dev[0] = NULL", Excluded(1)),
        ("ANY Dev = NULL", Excluded(3)),
        ("On = TRUE AND NOT ANY Temp = 1", Refused(22, 14)),
        ("(On = TRUE) AND (Dev = 3)", Refused(22, 17)),
    ])
}

fn shapes_before_kinds() -> Vec<Example> {
    types().ask(&[
        ("Us = 'x'", Refused(22, 0)),
        ("Us < I", Refused(22, 0)),
        ("Us < NULL", Refused(22, 0)),
        ("Us < Ss", Refused(21, 0)),
        ("Us < Us", Refused(21, 0)),
        ("U[0] = 'x'", Refused(22, 0)),
        ("ANY Us = I[0]", Refused(22, 0)),
        ("U[70000] = 1", Refused(22, 0)),
        ("ANY Us = I[70000]", Refused(22, 0)),
        ("Us LIKE 'a'", Refused(22, 0)),
        ("Ss LIKE '('", Refused(22, 0)),
        ("T = {'x'}", Refused(22, 0)),
    ])
}

fn array_literals() -> Vec<Example> {
    let mut out = Vec::new();
    for name in NAMES {
        out.extend(types().ask(&[
            (format!("{name}s = {{}}"), Excluded(1)),
            (format!("{name}s <> {{NULL,NULL,NULL}}"), Included(1)),
            (format!("{name} = {{}}"), Refused(22, 0)),
        ]));
        let none = types().with(&format!("{name}s"), null());
        out.extend(none.ask(&[(format!("{name}s = {{}}"), Excluded(1))]));
    }
    out.extend(sample().ask(&[
        ("Dev = {3,'x'}", Refused(21, 0)),
        ("Dev = {18446744073709551616,'x'}", Refused(21, 0)),
        ("Dev = {3,18446744073709551616}", Refused(23, 9)),
        ("Dev = {NULL, 5.}", Refused(21, 0)),
    ]));
    out.extend(types().ask(&[("Ts = {'x'}", Refused(25, 6)), ("Ts = {NULL,'x','y'}", Refused(25, 11))]));
    out
}

fn operators() -> Vec<Example> {
    sample().ask(&[
        ("Temp < NULL", Refused(21, 0)),
        ("Temp >= NULL", Refused(21, 0)),
        ("ANY Dev < NULL", Refused(21, 0)),
        ("Dev[0] < NULL", Refused(21, 0)),
        ("On < TRUE", Refused(21, 0)),
        ("Dev < Dev", Refused(21, 0)),
        ("Name < 'a'", Refused(21, 0)),
        ("Since LIKE 'x'", Refused(21, 0)),
        ("Temp LIKE 'x'", Refused(21, 0)),
        ("Temp <= -5", Included(1)),
        ("Temp >= -5", Included(1)),
        ("Temp <> -5", Excluded(1)),
        ("Temp < -5", Excluded(1)),
        ("Temp > -5", Excluded(1)),
        ("R <= .5 AND R >= .5", Included(2)),
        ("Since <= '20051003112233.000001+000'", Included(1)),
        ("On = TRUE AND NOT ANY Dev < NULL", Refused(21, 14)),
    ])
}
