//! Queries with the properties that they name, by their numbers in the table (02, Q-3).

use super::setting::{sample, truth, types};
use super::Setting;
use crate::kind::BOOLEAN;
use crate::record::write;

pub struct NamedExample {
    pub query: Vec<u8>,
    pub table: Vec<u8>,
    pub instance: Vec<u8>,
    /// In rising order.
    pub named: Vec<usize>,
}

fn over<Q: AsRef<[u8]>>(setting: &Setting, queries: &[(Q, &[usize])]) -> Vec<NamedExample> {
    let example = |(query, named): &(Q, &[usize])| NamedExample {
        query: query.as_ref().to_vec(),
        table: setting.table(),
        instance: setting.instance(),
        named: named.to_vec(),
    };
    queries.iter().map(example).collect()
}

/// Over the sample's class: On 0, Temp 1, Dev 2, Name 3, Since 4, R 5.
pub fn of_accepted_queries() -> Vec<NamedExample> {
    let mut out = over(
        &sample(),
        &[
            ("On = TRUE", &[0][..]),
            ("Since = NULL", &[4]),
            ("R = R", &[5]),
            ("R = p.r", &[5]),
            ("Dev = Dev", &[2]),
            ("Dev = {3,14}", &[2]),
            ("Dev <> {}", &[2]),
            ("Dev[65535] = NULL", &[2]),
            ("Dev[0] = Temp", &[1, 2]),
            ("Dev[0] = Dev[1]", &[2]),
            ("ANY Dev = 14", &[2]),
            ("ANY Dev = Temp", &[1, 2]),
            ("NOT EVERY Dev < Temp", &[1, 2]),
            ("EVERY Dev >= P.Dev[1]", &[2]),
            ("Name LIKE 'P.Temp'", &[3]),
            ("Name NOT LIKE 'Temp.*'", &[3]),
            ("Name = 'Temp'", &[3]),
            ("Name = 'On = TRUE OR Temp = 1'", &[3]),
            ("P.Temp = 1 OR temp <> 2", &[1]),
            ("temp = 1 AND TEMP = 1 AND p . tEMP = 1", &[1]),
            ("Dev[1] = Temp AND Name NOT LIKE 'FAN_.*'", &[1, 2, 3]),
            ("(R > .5 AND Temp < 0) OR (On = TRUE AND Temp > 9)", &[0, 1, 5]),
        ],
    );
    out.extend(with_skipped_comparisons());
    out.extend(under_other_names());
    out
}

/// On the sample On is TRUE, so the rest of each OR and of each AND after `On = FALSE` is skipped.
fn with_skipped_comparisons() -> Vec<NamedExample> {
    let all = "On = TRUE OR Temp = 1 AND Dev[0] = 1 OR Name = 'x' OR Since = NULL OR R < .5";
    let many = vec!["On = TRUE"; 63].join(" OR ") + " OR Temp = 1";
    over(
        &sample(),
        &[
            ("On = TRUE OR R < .5", &[0, 5][..]),
            ("On = TRUE OR Since = NULL", &[0, 4]),
            ("On = FALSE AND ANY Dev = Temp", &[0, 1, 2]),
            ("(On = TRUE) OR (Name = NULL AND Since = NULL)", &[0, 3, 4]),
            ("(On = FALSE AND R = .5 OR On = FALSE) AND (Temp > 0)", &[0, 1, 5]),
            (all, &[0, 1, 2, 3, 4, 5]),
            (&many, &[0, 1]),
        ],
    )
}

/// Reserved words as names, which need the class; and a property that has the class's name.
fn under_other_names() -> Vec<NamedExample> {
    let mut out = over(
        &types(),
        &[
            ("P.And = 7", &[20][..]),
            ("ANY P.ANY = P.and", &[20, 21]),
            ("p.null = 'n' OR S = NULL", &[5, 22]),
            ("_X1 = T", &[8, 23]),
        ],
    );
    let own = Setting::new("P", &[("A", BOOLEAN, truth(true)), ("P", BOOLEAN, truth(false))]);
    out.extend(over(&own, &[("P = TRUE", &[1][..]), ("P.P = TRUE", &[1]), ("P.A = TRUE", &[0]), ("A = p", &[0, 1])]));
    out
}

/// A path that names no property adds none; what else is wrong with a comparison takes none away.
pub fn of_refused_comparisons() -> Vec<NamedExample> {
    over(
        &sample(),
        &[
            ("Nope = 1 OR On = TRUE", &[0][..]),
            ("Nope = 1 OR Q.On = TRUE OR Name = 'On'", &[3]),
            ("Nope = 1", &[]),
            ("Nope = Temp", &[1]),
            ("Temp = Nope OR Nope = Nope", &[1]),
            ("Q.Temp = 1", &[]),
            ("Q.Temp = 1 OR P.Temp = 1", &[1]),
            ("P.Temp.More = 1 OR On = TRUE", &[0]),
            ("Temp.P = 1", &[]),
            ("P = 1", &[]),
            ("R = 5", &[5]),
            ("Dev = 3 OR Temp[0] = On", &[0, 1, 2]),
            ("Dev[65536] = Temp", &[1, 2]),
            ("Name LIKE '('", &[3]),
            ("Since = 'x'", &[4]),
        ],
    )
}

/// What isn't read names nothing, whatever stands before the fault.
pub fn of_refused_texts_and_tables() -> Vec<NamedExample> {
    let none: &[usize] = &[];
    let long = format!("On = TRUE{}", " ".repeat(4_088));
    let many = vec!["On = TRUE"; 65].join(" OR ");
    let mut out =
        over(&sample(), &["", "On = TRUE AND", "On = TRUE OR (Temp = 1)", "Temp", &long, &many].map(|q| (q, none)));
    // On the right of a plain path the grammar has no index.
    out.extend(over(&sample(), &[("Temp = Dev[0]", none)]));
    out.extend(over(&sample(), &[(b"On = TRUE OR Name = '\xff'", none)]));
    let twice = [sample().table(), write(BOOLEAN, b"ON")].concat();
    for table in [vec![], write(BOOLEAN, b"On"), twice, [sample().table(), vec![0]].concat()] {
        out.push(NamedExample { query: b"On = TRUE".to_vec(), table, instance: sample().instance(), named: vec![] });
    }
    out
}
