//! Patterns: which are well-formed, and what they match (01, "Meaning"; number 24).

use super::setting::{text, types};
use super::Example;
use super::Expected::{Accepted, Excluded, Included, Refused};

const WELL_FORMED: [&str; 36] = [
    "",
    "|",
    "()",
    "()*",
    "a||b",
    "(a*)*",
    "((a|)*)+",
    "[^^]",
    "[\\^a]",
    "[a^]",
    "[[]",
    "[.]",
    "[(]",
    "[*|]",
    "[+-\\-]",
    "[\\]-a]",
    "[\\\\]",
    "[a-a]",
    "[a-bc-d]",
    "[^a-z]",
    "[\\a-\\z]",
    "[ -~]",
    "{}^$-",
    "\\n",
    "\\.",
    "\\\\",
    "\\\u{1d11e}",
    "a\\.b",
    "(a|b(c|))+d?",
    ".*",
    ".?.+",
    "-a",
    "a-",
    "^a",
    "\u{e9}*",
    "'",
];

const MALFORMED: [&str; 35] = [
    "[^]", "[]", "[a-]", "[-a]", "[^-a]", "[a-b-c]", "[--a]", "[b-a]", "[", "[^", "[a", "[a-", "[\\", "[a\\", "[\\]",
    "[]a]", "[^]a]", "a**", "a+?", "a?*", "*a", "+", "?", "(*)", "|*", "(+a)", "a|*b", ")", "]", "a)", "(", "(a",
    "((a)", "\\", "a\\",
];

pub fn examples() -> Vec<Example> {
    let mut out = well_formed();
    out.extend(malformed());
    out.extend(limits());
    out.extend(matches());
    out.extend(in_strings());
    out
}

/// The literal of a pattern; `S LIKE ` takes seven bytes before it.
fn like(pattern: &str) -> String {
    format!("S LIKE '{}'", pattern.replace('\\', "\\\\").replace('\'', "\\'"))
}

fn well_formed() -> Vec<Example> {
    WELL_FORMED.iter().flat_map(|p| types().ask(&[(like(p), Accepted)])).collect()
}

fn malformed() -> Vec<Example> {
    MALFORMED.iter().flat_map(|p| types().ask(&[(like(p), Refused(24, 7))])).collect()
}

/// 256 characters after the string's unescaping, 60 symbols, eight groups inside one another.
fn limits() -> Vec<Example> {
    let nested = |n: usize| "(".repeat(n) + "a" + &")".repeat(n);
    let set = |n: usize| "[".to_owned() + &"a".repeat(n - 2) + "]";
    let escaped = |n: usize| "[".to_owned() + &"\\a".repeat(n) + "]";
    let within = [
        "a".repeat(60),
        "\\.".repeat(60),
        "[ab]".repeat(60),
        ".+".repeat(60),
        format!("({})*", "a|".repeat(60)),
        nested(8),
        nested(8).repeat(2),
        set(256),
        escaped(127),
        "|".repeat(256),
        "()".repeat(128),
        "\u{1d11e}".repeat(60),
    ];
    let beyond = [
        "a".repeat(61),
        "\\.".repeat(61),
        "[ab]".repeat(61),
        ".+".repeat(61),
        format!("({}a)*", "a|".repeat(60)),
        nested(9),
        set(257),
        escaped(128),
        "|".repeat(257),
    ];
    let mut out: Vec<Example> = within.iter().flat_map(|p| types().ask(&[(like(p), Excluded(6))])).collect();
    out.extend(beyond.iter().flat_map(|p| types().ask(&[(like(p), Refused(24, 7))])));
    out
}

/// A pattern, texts that it matches and texts that it doesn't.
type Matches = (&'static str, &'static [&'static str], &'static [&'static str]);

const MATCHES: [Matches; 26] = [
    ("", &[""], &["a", " "]),
    ("abc", &["abc"], &["ab", "abcd", "xabc", "ABC", ""]),
    ("a|b", &["a", "b"], &["", "ab", "c"]),
    ("a|", &["a", ""], &["aa"]),
    ("ab|cd", &["ab", "cd"], &["abd", "acd", "abcd"]),
    ("a*", &["", "a", "aaaa"], &["b", "aab"]),
    ("a+", &["a", "aaaa"], &["", "b"]),
    ("a?", &["", "a"], &["aa"]),
    ("(ab)*", &["", "ab", "abab"], &["a", "aba", "abb"]),
    ("(ab)+", &["ab", "abab"], &["", "aab"]),
    ("(a|b)*c", &["c", "abbac"], &["abba", "cc"]),
    ("(a*)*", &["", "aaa"], &["b"]),
    ("(a*|b)+", &["", "abab"], &["c"]),
    ("()*", &[""], &["a"]),
    ("a.c", &["abc", "a.c", "a\nc", "a\u{1d11e}c", "a\0c"], &["ac", "abbc"]),
    (".*", &["", "a\r\nb", "\u{10ffff}"], &[]),
    ("[a-c]x", &["ax", "bx", "cx"], &["dx", "x", "abx", "Ax"]),
    ("[^a-c]", &["d", "^", "-", "\u{e9}"], &["a", "b", "c", ""]),
    ("[^^]", &["a"], &["^"]),
    ("[a^]", &["a", "^"], &["b"]),
    ("[+-\\-]", &["+", ",", "-"], &["*", ".", "\\"]),
    ("[\\]\\\\]", &["]", "\\"], &["[", "]\\"]),
    ("\\n\\.\\(", &["n.("], &["\n.(", "nx("]),
    ("^a$", &["^a$"], &["a"]),
    ("a{2}", &["a{2}"], &["aa"]),
    ("FAN_.*", &["FAN_", "FAN_2", "FAN_22"], &["FAN", "fan_2", "xFAN_2"]),
];

fn matches() -> Vec<Example> {
    let mut out = Vec::new();
    for (pattern, right, wrong) in MATCHES {
        for value in right.iter().chain(wrong) {
            let steps = 1 + value.chars().count() as u64;
            let expected = if right.contains(value) { Included(steps) } else { Excluded(steps) };
            out.extend(types().with("S", text(value)).ask(&[(like(pattern), expected)]));
        }
    }
    out
}

/// The string's own escapes come first.
fn in_strings() -> Vec<Example> {
    let mut out = types().ask(&[
        ("S LIKE '\\.'", Refused(11, 7)),
        ("S LIKE 'a\\\\.b'", Excluded(6)),
        ("S LIKE '\\\\'", Refused(24, 7)),
        ("S LIKE '\\\\\\\\'", Excluded(6)),
        ("S LIKE '\\u002E\\u002A'", Included(6)),
        ("S LIKE '\\u0028'", Refused(24, 7)),
        ("U = 5 AND S NOT LIKE '('", Refused(24, 21)),
        ("Ss[0] LIKE '['", Refused(24, 11)),
    ]);
    out.extend(types().with("S", text("\n")).ask(&[("S LIKE '\\n'", Included(2)), ("S LIKE '\\\\n'", Excluded(2))]));
    out
}
