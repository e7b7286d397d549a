//! 01's wrong turns: for each an input on which it shows.

use super::setting::{array, null, real64, sample, sint64, text, types, uint64};
use super::Example;
use super::Expected::{Excluded, Included, Refused};
use crate::kind::{SINT64, UINT64};

pub fn examples() -> Vec<Example> {
    let mut out = negative_numbers();
    out.extend(every_on_null());
    out.extend(skipped_names());
    out.extend(escapes());
    out.extend(whole_texts());
    out.extend(decimal_fractions());
    out
}

/// "Reading −5 as unsigned beside 2".
fn negative_numbers() -> Vec<Example> {
    let mut out = sample().ask(&[
        ("Temp < 2", Included(1)),
        ("Temp > 2", Excluded(1)),
        ("ANY Dev > Temp", Included(2)),
        ("EVERY Dev < Temp", Excluded(2)),
    ]);
    out.extend(types().with("U", uint64(u64::MAX - 4)).ask(&[
        ("I < U", Included(1)),
        ("I = U", Excluded(1)),
        ("U > I", Included(1)),
        ("U = 18446744073709551611", Included(1)),
        ("I = 18446744073709551611", Excluded(1)),
    ]));
    let (wide, narrow) = (array(UINT64, &[uint64(u64::MAX)]), array(SINT64, &[sint64(-1)]));
    out.extend(types().with("Us", wide).with("Is", narrow).ask(&[
        ("Us = Is", Excluded(2)),
        ("Us[0] > Is[0]", Included(1)),
        ("ANY Us = Is[0]", Excluded(2)),
    ]));
    out
}

/// "taking EVERY on NULL for true".
fn every_on_null() -> Vec<Example> {
    sample().with("Dev", null()).ask(&[
        ("EVERY Dev = 3", Excluded(1)),
        ("ANY Dev = 3", Excluded(1)),
        ("EVERY Dev = NULL", Excluded(1)),
        ("NOT EVERY Dev = 3", Included(1)),
        ("NOT ANY Dev = 3", Included(1)),
    ])
}

/// "treating a skipped comparison's unknown name as harmless".
fn skipped_names() -> Vec<Example> {
    sample().ask(&[
        ("On = TRUE OR Zed = 1", Refused(20, 13)),
        ("On = FALSE AND Zed = 1", Refused(20, 15)),
        ("(On = TRUE) OR (Zed = 1)", Refused(20, 16)),
        ("On = TRUE OR Temp = 'x'", Refused(21, 13)),
        ("On = TRUE OR Temp = {}", Refused(22, 13)),
        ("On = TRUE OR Dev[65536] = 1", Refused(23, 17)),
        ("On = TRUE OR Name LIKE '('", Refused(24, 23)),
        ("On = TRUE OR Since = 'x'", Refused(25, 21)),
    ])
}

/// "letting `\u0041BC` stop after four digits".
fn escapes() -> Vec<Example> {
    let of = |value: &str, query: &str, expected| sample().with("Name", text(value)).ask(&[(query, expected)]);
    let mut out = of("\u{41bc}", "Name = '\\u0041BC'", Included(1));
    out.extend(of("ABC", "Name = '\\u0041BC'", Excluded(1)));
    out.extend(of("\u{41bc}D", "Name = '\\u0041BCD'", Included(1)));
    out.extend(of("ABC", "Name = '\\u0041\\u0042C'", Excluded(1)));
    out.extend(of("A\u{42c}", "Name = '\\u0041\\u0042C'", Included(1)));
    out.extend(of("Ax", "Name = '\\u0041x'", Included(1)));
    out.extend(of("\u{4100}41", "Name = '\\u00410041'", Included(1)));
    out.extend(of("\u{10ffff}F", "Name = '\\u10FFFFF'", Included(1)));
    out
}

/// "matching only the front of a text".
fn whole_texts() -> Vec<Example> {
    sample().ask(&[
        ("Name LIKE 'FAN'", Excluded(6)),
        ("Name LIKE ''", Excluded(6)),
        ("Name LIKE 'FAN_|FAN'", Excluded(6)),
        ("Name LIKE 'AN_2'", Excluded(6)),
        ("Name LIKE 'AN_'", Excluded(6)),
        ("Name LIKE 'FAN_2'", Included(6)),
        ("Name LIKE 'FAN_2x*'", Included(6)),
        ("Name LIKE 'FAN_2x'", Excluded(6)),
        ("Name NOT LIKE 'FAN'", Included(6)),
    ])
}

/// "adding `.15` up digit by digit"; 0.1 + 0.05 is no 0.15, and 3 × 0.1 no 0.3.
fn decimal_fractions() -> Vec<Example> {
    let mut out = Vec::new();
    for (value, literal) in
        [(0.15, ".15"), (0.3, ".3"), (0.7, "7.E-1"), (0.35, "35.E-2"), (1e22, "1.E22"), (1e-22, "1.E-22")]
    {
        out.extend(sample().with("R", real64(value)).ask(&[(format!("R = {literal}"), Included(1))]));
    }
    out.extend(sample().with("R", real64(0.1 + 0.05)).ask(&[("R = .15", Excluded(1)), ("R > .15", Included(1))]));
    out.extend(sample().with("R", real64(3.0 * 0.1)).ask(&[("R = .3", Excluded(1))]));
    out
}
