//! 01's own examples: "A fan to try", line by line, and those in its running text.

use super::setting::{sample, text};
use super::Example;
use super::Expected::{Excluded, Included, Refused};

pub fn examples() -> Vec<Example> {
    let mut out = sample().ask(&[
        ("On = TRUE", Included(1)),
        ("Dev = {3,14}", Included(3)),
        ("Dev = {14,3}", Excluded(2)),
        ("ANY Dev = 14", Included(3)),
        ("NOT EVERY Dev = 3", Included(3)),
        ("Dev[2] = NULL", Included(1)),
        ("Name NOT LIKE 'FAN_.*'", Excluded(6)),
        ("Temp > 0 AND On = TRUE OR R = .5", Included(2)),
        ("Temp < 18446744073709551615", Included(1)),
        ("Temp < 18446744073709551616", Refused(23, 7)),
        ("Since = '20051003122233.000000+060'", Included(1)),
        ("R = 5", Refused(21, 0)),
        ("On = TRUE AND", Refused(11, 13)),
        ("Dev ANY 3", Refused(11, 4)),
        ("ANY Dev LIKE 'x'", Refused(11, 8)),
        ("", Refused(11, 0)),
    ]);
    out.extend(of_the_last_line());
    out.extend(in_running_text());
    out
}

/// "64 comparisons pass, 65 give 12; 4,096 bytes pass the length, 4,097 give 1."
fn of_the_last_line() -> Vec<Example> {
    let comparisons = |n: usize, join: &str| vec!["On = TRUE"; n].join(join);
    let bytes = |n: usize| format!("On = TRUE{}", " ".repeat(n - 9));
    sample().ask(&[
        (comparisons(64, " AND "), Included(64)),
        (comparisons(65, " AND "), Refused(12, 64 * 14)),
        (comparisons(64, " OR "), Included(1)),
        (comparisons(65, " OR "), Refused(12, 64 * 13)),
        (bytes(4_096), Included(1)),
        (bytes(4_097), Refused(1, 0)),
        ("x".repeat(4_096), Refused(11, 4_096)),
        ("x".repeat(4_097), Refused(1, 0)),
    ])
}

fn in_running_text() -> Vec<Example> {
    let elements = |n: usize| format!("Dev = {{{}}}", vec!["3"; n].join(","));
    let mut out = sample().ask(&[
        ("Dev < {3}", Refused(11, 6)),
        ("Temp = Dev[0]", Refused(11, 10)),
        ("Dedicated ANY 3", Refused(11, 10)),
        ("Name = \"FAN_2\"", Refused(11, 7)),
        ("Dev[65535] = NULL", Included(1)),
        ("Dev[65536] = NULL", Refused(23, 4)),
        (elements(32).as_str(), Excluded(1)),
        (elements(33).as_str(), Refused(12, 7 + 64)),
        ("Other.Temp = 1", Refused(20, 0)),
        ("P.Temp.More = 1", Refused(20, 0)),
        ("Temp = -5", Included(1)),
    ]);
    out.extend(sample().with("Name", text("\u{41bc}")).ask(&[("Name = '\\u0041BC'", Included(1))]));
    // The second instance of the program's example is empty.
    out.extend(sample().ask(&[("On = TRUE", Refused(31, 0))]).into_iter().map(|e| Example { instance: vec![], ..e }));
    out
}
