//! Tokens and grammar: whitespace, the longest token that fits, strings, names, brackets (01, "Query text"; number 11,
//! and 20 where the text is right and the name isn't).

use super::setting::{sample, text, types, uint64, Setting};
use super::Example;
use super::Expected::{Excluded, Included, Refused};
use crate::kind::UINT64;

pub fn examples() -> Vec<Example> {
    let mut out = grammar();
    out.extend(quantifiers());
    out.extend(whitespace());
    out.extend(numbers());
    out.extend(numbers_in_an_index());
    out.extend(strings());
    out.extend(escaped_characters());
    out.extend(names());
    out.extend(names_and_classes());
    out.extend(other_characters());
    out
}

fn grammar() -> Vec<Example> {
    sample().ask(&[
        ("Dev < {3}", Refused(11, 6)),
        ("Temp = Dev[0]", Refused(11, 10)),
        ("Temp = {1", Refused(11, 9)),
        ("Dev = {3,}", Refused(11, 9)),
        ("Dev = {,3}", Refused(11, 7)),
        ("Dev = {3 14}", Refused(11, 9)),
        ("Dev = {Temp}", Refused(11, 7)),
        ("Dev = { 3 , 14 }", Included(3)),
        ("Dev={3,14}", Included(3)),
        ("Name LIKE Name", Refused(11, 10)),
        ("Name LIKE NULL", Refused(11, 10)),
        ("Name = 'a''b'", Refused(11, 10)),
        ("(On = TRUE) AND Temp = 1", Refused(11, 16)),
        ("On = TRUE AND (Temp = 1)", Refused(11, 14)),
        ("((", Refused(11, 1)),
        ("((On = TRUE))", Refused(11, 1)),
        ("()", Refused(11, 1)),
        ("(On = TRUE", Refused(11, 10)),
        ("(On = TRUE))", Refused(11, 11)),
        ("On = TRUE)", Refused(11, 9)),
        ("(On = TRUE)", Included(1)),
        ("(On = TRUE) (On = TRUE)", Refused(11, 12)),
        ("(On = TRUE) AND", Refused(11, 15)),
        ("On", Refused(11, 2)),
        ("On =", Refused(11, 4)),
        ("On TRUE", Refused(11, 3)),
        ("TRUE = On", Refused(11, 0)),
        ("5 = Temp", Refused(11, 0)),
        ("On = On = On", Refused(11, 8)),
        ("Temp < = 1", Refused(11, 7)),
        ("Temp =< 1", Refused(11, 6)),
        ("Temp == 1", Refused(11, 6)),
        ("Temp != 1", Refused(11, 5)),
        ("Temp.5 = 1", Refused(11, 4)),
        ("Nope = 1 AND", Refused(11, 12)),
    ])
}

fn quantifiers() -> Vec<Example> {
    let mut out = sample().ask(&[
        ("ANY Dev = {3}", Refused(11, 10)),
        ("Dev[0] = {3}", Refused(11, 9)),
        ("ANY Dev[0] = 3", Refused(11, 7)),
        ("NOT ANY Dev LIKE 'x'", Refused(11, 12)),
        ("NOT On = TRUE", Refused(11, 4)),
        ("NOT NOT ANY Dev = 3", Refused(11, 4)),
        ("Name LIKE NOT 'a'", Refused(11, 10)),
        ("Name NOT 'a'", Refused(11, 9)),
        ("Name NOT = 'a'", Refused(11, 9)),
        ("ANY EVERY Dev = 3", Refused(11, 4)),
        ("Dev[0] NOT LIKE 'x'", Refused(21, 0)),
        ("nOt eVeRy Dev = 3", Included(3)),
        ("any Dev[1", Refused(11, 7)),
        ("ANY Dev = Dev[1]", Included(3)),
    ]);
    out.extend(types().ask(&[("Ss[1] not like 'x|bc'", Excluded(3)), ("Ss[ 1 ]LIKE'bc'", Included(3))]));
    out
}

fn whitespace() -> Vec<Example> {
    types().ask(&[
        ("P . U = 5", Included(1)),
        ("P\t.\r\nU = 5", Included(1)),
        ("Us [ 0 ] = 3", Included(1)),
        (" U = 5 ", Included(1)),
        ("\r\n\tU = 5", Included(1)),
        ("U=5", Included(1)),
        ("  ", Refused(11, 2)),
        ("U = 5 AND ", Refused(11, 10)),
        ("U = 5AND U = 1", Refused(11, 5)),
        ("U = 5 ANDU = 1", Refused(11, 6)),
        ("S = 'x'AND U = 1", Excluded(1)),
        ("S LIKE'x'", Excluded(6)),
        ("ANY Us = Is[0]AND U = 5", Excluded(3)),
        ("(U = 1)AND(U = 2)", Excluded(1)),
        ("(U = 1)OR(U = 5)", Included(2)),
        ("Us={3,14}AND U=5", Included(4)),
        ("U =\u{b}5", Refused(11, 3)),
        ("U =\u{c}5", Refused(11, 3)),
        ("U =\u{a0}5", Refused(11, 3)),
        ("\u{feff}U = 5", Refused(11, 0)),
        ("ANYUs = 3", Refused(20, 0)),
        ("NOTANY Us = 3", Refused(11, 7)),
        ("NOT ANYUs = 3", Refused(11, 4)),
    ])
}

fn numbers() -> Vec<Example> {
    types().ask(&[
        ("U = 0x123", Refused(11, 8)),
        ("U = 0x1", Refused(11, 5)),
        ("U = 0x", Refused(11, 5)),
        ("U = 0X05", Included(1)),
        ("U = 0x0005", Included(1)),
        ("U = OX05", Refused(20, 4)),
        ("U = 12B", Refused(11, 6)),
        ("U = 0B1", Refused(11, 6)),
        ("U = 101B", Included(1)),
        ("U = +101b", Included(1)),
        ("D = 1E5", Refused(11, 5)),
        ("D = 1.E", Refused(11, 6)),
        ("D = 1.E+", Refused(11, 6)),
        ("D = 1.5E", Refused(11, 7)),
        ("D = 5.E-1", Included(1)),
        ("D = 1.E5", Excluded(1)),
        ("U = 1B1", Refused(11, 6)),
        ("D = 1.5.5", Refused(11, 7)),
        ("D = .", Refused(11, 4)),
        ("D = .E5", Refused(11, 4)),
        ("D = +.5", Included(1)),
        ("U = - 5", Refused(11, 4)),
        ("U=-5", Excluded(1)),
        ("U<-5", Excluded(1)),
        ("U>-5", Included(1)),
        ("U = 5-5", Refused(11, 5)),
        ("U = +-5", Refused(11, 4)),
        ("U = +", Refused(11, 4)),
        ("P.5 = 1", Refused(11, 1)),
        ("P. 5 = 1", Refused(11, 3)),
        ("D = 1.AND U = 1", Refused(11, 6)),
        ("D = 1. AND U = 1", Excluded(1)),
        ("Us = {3,14,}", Refused(11, 11)),
        ("Us = {3,14x}", Refused(11, 10)),
        ("I = 0x000000000000000000001", Refused(11, 26)),
        ("I = 0x0000000000000000000001", Excluded(1)),
    ])
}

fn numbers_in_an_index() -> Vec<Example> {
    types().ask(&[
        ("Us[101B] = 1", Refused(11, 3)),
        ("Us[1.] = 1", Refused(11, 3)),
        ("Us[.5] = 1", Refused(11, 3)),
        ("Us[0x01] = 1", Refused(11, 3)),
        // One hex digit makes no pair: the number is 0, and a word touches it.
        ("Us[0x1] = 1", Refused(11, 4)),
        ("Us[+1] = 1", Refused(11, 3)),
        ("Us[-0] = 1", Refused(11, 3)),
        ("Us[] = 1", Refused(11, 3)),
        ("Us['0'] = 1", Refused(11, 3)),
        ("Us[U] = 1", Refused(11, 3)),
        ("Us[0 1] = 1", Refused(11, 5)),
        ("Us[0][0] = 1", Refused(11, 5)),
        ("Us[001] = 14", Included(1)),
        ("Us[007] = NULL", Included(1)),
    ])
}

const NO_STRINGS: [&str; 25] = [
    "'\\x'",
    "'\\.'",
    "'\\N'",
    "'\\U0041'",
    "'\\u41'",
    "'\\u041'",
    "'\\u004G'",
    "'\\uD800'",
    "'\\uDFFF'",
    "'\\u00D800'",
    "'\\uD83D\\uDE00'",
    "'\\u110000'",
    "'\\uFFFFFF'",
    "'a\tb'",
    "'a\nb'",
    "'\0'",
    "'\u{1f}'",
    "'\u{fffe}'",
    "'\u{ffff}'",
    "'a",
    "'",
    "'a\\'",
    "'\\",
    "\"a\"",
    "`a`",
];

const STRINGS: [&str; 19] = [
    "''",
    "'\\u0000'",
    "'\\u0009'",
    "'\\uFFFF'",
    "'\\uFFFE'",
    "'\\uD7FF'",
    "'\\uE000'",
    "'\\u10FFFF'",
    "'\\u0a0B'",
    "'\u{7f}'",
    "'\u{80}'",
    "'\u{fffd}'",
    "'\u{10000}'",
    "'\\\\'",
    "'\\''",
    "'\\b\\t\\n\\f\\r'",
    "'\"'",
    "'AND'",
    "'a\\\\'",
];

fn strings() -> Vec<Example> {
    let ask = |literal: &&str, expected| types().ask(&[(format!("S = {literal}"), expected)]);
    let mut out: Vec<Example> = NO_STRINGS.iter().flat_map(|literal| ask(literal, Refused(11, 4))).collect();
    out.extend(STRINGS.iter().flat_map(|literal| ask(literal, Excluded(1))));
    out
}

fn escaped_characters() -> Vec<Example> {
    let mut out = Vec::new();
    for (value, literal) in [
        ("\u{8}\t\n\u{c}\r", "'\\b\\t\\n\\f\\r'"),
        ("'\\", "'\\'\\\\'"),
        ("\0", "'\\u0000'"),
        ("\u{ffff}", "'\\uFFFF'"),
        ("A", "'\\u0041'"),
        ("A", "'\\u00041'"),
        ("A", "'\\u000041'"),
        ("\u{10ffff}", "'\\u10ffff'"),
        ("\u{1d11e}", "'\\u1D11E'"),
        ("\u{1d11e}", "'\u{1d11e}'"),
        ("Ag", "'\\u0041g'"),
        ("A'", "'\\u0041\\''"),
    ] {
        out.extend(types().with("S", text(value)).ask(&[(format!("S = {literal}"), Included(1))]));
    }
    out
}

fn names() -> Vec<Example> {
    let long = "x".repeat(65);
    types().ask(&[
        ("p.u = 5", Included(1)),
        ("P.And = 7", Included(1)),
        ("p.aND = 7", Included(1)),
        ("ANY P.Any = 7", Included(2)),
        ("P.Null LIKE 'n'", Included(2)),
        ("P.Null = NULL", Excluded(1)),
        ("U = P.And", Excluded(1)),
        ("U = And", Refused(11, 4)),
        ("And = 7", Refused(11, 0)),
        ("ANY Any = 7", Refused(11, 4)),
        ("_x1 = '00000001000000.000000:000'", Included(1)),
        ("TRUE.U = 1", Refused(11, 0)),
        ("AND.X = 1", Refused(11, 0)),
        ("ANY.U = 1", Refused(11, 3)),
        ("NOT.U = 1", Refused(11, 3)),
        ("B = TRUE.U", Refused(11, 8)),
        ("P. = 1", Refused(11, 3)),
        (".U = 1", Refused(11, 0)),
        ("P..U = 1", Refused(11, 2)),
        ("NOTANY = 1", Refused(20, 0)),
        ("ANDx = 1", Refused(20, 0)),
        (&format!("{long} = 1"), Refused(20, 0)),
        (&format!("{long}.U = 1"), Refused(20, 0)),
        (&format!("P.{long} = 1"), Refused(20, 0)),
    ])
}

fn names_and_classes() -> Vec<Example> {
    let mut out = types().ask(&[
        ("P.U.AND = 1", Refused(20, 0)),
        ("x.AND = 1", Refused(20, 0)),
        ("Q.AND = 1", Refused(20, 0)),
        ("U.X = 1", Refused(20, 0)),
        ("Q.U = 1", Refused(20, 0)),
        ("P.P.U = 1", Refused(20, 0)),
        ("P.Nope = 1", Refused(20, 0)),
        ("Q.Nope = 1", Refused(20, 0)),
        ("P = 1", Refused(20, 0)),
        ("U = P.Nope", Refused(20, 4)),
        ("U = Q . U", Refused(20, 4)),
        ("NOT EVERY Q.Us = 1", Refused(20, 10)),
        ("Us[0] = Nope[1]", Refused(20, 8)),
        ("U = 5 AND Nope LIKE 'x'", Refused(20, 10)),
    ]);
    let same = Setting::new("P", &[("P", UINT64, uint64(5))]);
    out.extend(same.ask(&[
        ("P = 5", Included(1)),
        ("P.P = 5", Included(1)),
        ("p . p = P", Included(1)),
        ("P.P.P = 5", Refused(20, 0)),
    ]));
    out
}

fn other_characters() -> Vec<Example> {
    sample().ask(&[
        ("Temp\u{e9} = 1", Refused(11, 4)),
        ("\u{e9} = 1", Refused(11, 0)),
        ("= \0", Refused(11, 0)),
        ("On = TRUE\0", Refused(11, 9)),
        ("On = TRUE;", Refused(11, 9)),
        ("On = TRUE -- x", Refused(11, 10)),
        ("On # TRUE", Refused(11, 3)),
        ("On = \u{2212}5", Refused(11, 5)),
        ("On = \u{2018}x\u{2019}", Refused(11, 5)),
    ])
}
