//! The limits of a text, on both sides: bytes, comparisons, elements (numbers 1 and 12, and 11 before 12 at one token).

use super::setting::types;
use super::Example;
use super::Expected::{self, Excluded, Included, Refused};

pub fn examples() -> Vec<Example> {
    let mut out = types().ask(&comparisons());
    out.extend(types().ask(&grouped_comparisons()));
    out.extend(types().ask(&elements()));
    out.extend(types().ask(&lengths()));
    out
}

/// So many comparisons of seven bytes each, with the join after the last.
fn joined(n: usize, rest: &str) -> String {
    "U=5 OR ".repeat(n) + rest
}

fn comparisons() -> Vec<(String, Expected)> {
    vec![
        (joined(63, "U=5"), Included(1)),
        (joined(64, "U=5"), Refused(12, 448)),
        (joined(64, "x"), Refused(12, 448)),
        (joined(64, "NOT"), Refused(12, 448)),
        (joined(64, "NOT LIKE 'x'"), Refused(12, 448)),
        (joined(64, "any"), Refused(12, 448)),
        (joined(64, "EVERY"), Refused(12, 448)),
        (joined(64, "="), Refused(11, 448)),
        (joined(64, "5"), Refused(11, 448)),
        (joined(64, "TRUE"), Refused(11, 448)),
        (joined(64, "(U=5)"), Refused(11, 448)),
        (joined(64, "'\\x'"), Refused(11, 448)),
        (joined(64, ""), Refused(11, 448)),
        (joined(64, "U=5 OR #"), Refused(12, 448)),
        (joined(2, "# OR U=5"), Refused(11, 14)),
        ("U = 6 AND ".repeat(63) + "U=5", Excluded(1)),
    ]
}

fn grouped_comparisons() -> Vec<(String, Expected)> {
    let group = |n: usize| format!("({})", joined(n - 1, "U=5"));
    vec![
        (group(64), Included(1)),
        (group(65), Refused(12, 449)),
        (format!("{} AND {}", group(32), group(32)), Included(2)),
        // A group of n has 7n − 2 bytes; the next comparison stands after ` AND (`.
        (format!("{} AND {}", group(32), group(33)), Refused(12, 222 + 6 + 224)),
        (format!("{} AND (x = 1)", group(64)), Refused(12, 446 + 6)),
        (format!("{} AND x = 1", group(64)), Refused(11, 446 + 5)),
        (format!("{} AND (TRUE", group(64)), Refused(11, 446 + 6)),
        (vec!["(U=5)"; 64].join("AND"), Included(64)),
        (vec!["(U=5)"; 65].join("AND"), Refused(12, 64 * 8 + 1)),
    ]
}

fn elements() -> Vec<(String, Expected)> {
    let list = |n: usize, rest: &str| format!("Us = {{{}{rest}", "1,".repeat(n));
    vec![
        (list(31, "1}"), Excluded(1)),
        (list(32, "1}"), Refused(12, 70)),
        (list(32, "'x'"), Refused(12, 70)),
        (list(32, "NULL #"), Refused(12, 70)),
        (list(32, "5x"), Refused(12, 70)),
        (list(32, "x}"), Refused(11, 70)),
        (list(32, "}"), Refused(11, 70)),
        (list(32, "AND"), Refused(11, 70)),
        (list(32, "'\\x'}"), Refused(11, 70)),
        (list(32, ""), Refused(11, 70)),
        (list(3, "1} AND "), Refused(11, 19)),
    ]
}

fn lengths() -> Vec<(String, Expected)> {
    let literal = |n: usize| format!("S = '{}'", "x".repeat(n - 6));
    let digits = |n: usize| format!("U = {}5", "0".repeat(n - 5));
    vec![
        (literal(4_096), Excluded(1)),
        (literal(4_097), Refused(1, 0)),
        (digits(4_096), Included(1)),
        (digits(4_097), Refused(1, 0)),
        ("#".repeat(4_096), Refused(11, 0)),
        ("#".repeat(4_097), Refused(1, 0)),
        (" ".repeat(4_096), Refused(11, 4_096)),
    ]
}
