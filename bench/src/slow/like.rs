//! LIKE at its slowest: patterns of many symbols, bars, groups or ranges on texts whose live symbols never repeat, are
//! many, or meet many different characters.

use super::input::{filled, table, Input};
use super::texts::{cycled, of_four_bytes, of_three_bytes, of_two_bytes, range, shuffled, LONGEST};
use reference::kind::{ARRAY, CHAR16, STRING};
use reference::record::write;

const PATTERN: usize = 256;

fn on_text(name: &str, query: String, text: &str) -> Input {
    Input::new(name, query, table(&[(STRING, "S")]), write(STRING, text.as_bytes()))
}

/// As many comparisons as fit, each of which is judged: by OR they have to fail, by AND to hold.
fn over_text(name: &str, pattern: &str, join: &str, text: &str) -> Input {
    on_text(name, filled(&format!("S LIKE'{pattern}'"), join), text)
}

pub fn inputs() -> Vec<Input> {
    [sets_that_never_repeat(), steady_sets(), beyond_ascii(), ranges(), of_elements()].into_iter().flatten().collect()
}

/// Which of the last characters were this one: another set for each character of the text.
fn window(character: char, behind: usize) -> String {
    format!(".*{character}{}", ".".repeat(behind))
}

/// As many bars behind it as a pattern may have characters.
fn barred(pattern: &str) -> String {
    format!("{pattern}{}", "|".repeat(PATTERN - pattern.chars().count()))
}

fn sets_that_never_repeat() -> Vec<Input> {
    let text = shuffled(&['a', 'b'], LONGEST, 'b');
    let text = text.as_str();
    let groups = format!("{}{}{}{}", "(".repeat(8), window('a', 43), "|".repeat(PATTERN - 62), ")".repeat(8));
    vec![
        on_text("LIKE, one pattern, 46 symbols, new sets", format!("S LIKE '{}'", window('a', 44)), text),
        over_text("LIKE, 46 symbols, new sets", &window('a', 44), "OR", text),
        over_text("LIKE, 52 symbols, new sets", &window('a', 50), "OR", text),
        over_text("LIKE, 60 symbols, new sets", &window('a', 58), "OR", text),
        over_text("LIKE, 256 characters, bars, new sets", &barred(&window('a', 43)), "OR", text),
        over_text("LIKE, 256 characters, groups and bars", &groups, "OR", text),
        over_text("LIKE, options, new sets", &format!(".*a{}", "b?a?".repeat(28)), "AND", text),
    ]
}

fn steady_sets() -> Vec<Input> {
    let all = "a".repeat(LONGEST);
    let mixed = shuffled(&['a', 'b'], LONGEST, 'b');
    let ascii = cycled(&range(' ', '~'), LONGEST, 'a');
    vec![
        over_text("LIKE, [a-b]*", "[a-b]*", "AND", &mixed),
        over_text("LIKE, 60 live symbols, one character", &"a*".repeat(60), "AND", &all),
        over_text("LIKE, 60 live symbols, group", &format!("({})*", "a?".repeat(60)), "AND", &all),
        over_text("LIKE, 60 live symbols, 95 characters", &".*".repeat(60), "AND", &ascii),
        over_text("LIKE, 26 live symbols, 95 characters", &".*".repeat(26), "AND", &ascii),
        over_text("LIKE, 48 sets, 95 characters", &format!("({})*", ".".repeat(48)), "OR", &ascii),
        over_text("LIKE, 59 live symbols, 95 characters, group", &format!("({}.)*", ".?".repeat(58)), "AND", &ascii),
    ]
}

fn beyond_ascii() -> Vec<Input> {
    let (two, three, four) = (of_two_bytes(), of_three_bytes(), of_four_bytes());
    let mut inputs = Vec::new();
    for (bytes, characters) in [("2", &two), ("3", &three), ("4", &four)] {
        let text = cycled(characters, LONGEST, 'b');
        let name = |what: &str| format!("LIKE, {bytes}-byte characters, {what}");
        inputs.push(over_text(&name("26 live symbols"), &".*".repeat(26), "AND", &text));
        inputs.push(over_text(&name("60 live symbols"), &".*".repeat(60), "AND", &text));
        inputs.push(over_text(&name(".*"), ".*", "AND", &text));
    }
    inputs.extend(new_sets_beyond_ascii());
    inputs
}

fn new_sets_beyond_ascii() -> Vec<Input> {
    let two = shuffled(&['é', 'à'], LONGEST, 'b');
    let three = shuffled(&['一', '丁'], LONGEST, 'b');
    let many = shuffled(&of_two_bytes(), LONGEST, 'b');
    let half = format!(".*[\u{80}-\u{3ff}]{}", ".".repeat(43));
    vec![
        over_text("LIKE, 2-byte characters, new sets", &window('é', 50), "OR", &two),
        over_text("LIKE, 3-byte characters, new sets", &window('一', 49), "OR", &three),
        over_text("LIKE, 2-byte characters, bars, new sets", &barred(&window('é', 43)), "OR", &two),
        over_text("LIKE, 1,920 2-byte characters, new sets", &half, "OR", &many),
        over_text("LIKE, 1,920 2-byte characters, bars, new sets", &barred(&half), "OR", &many),
    ]
}

/// A set of so many ranges of two characters each, two characters apart.
fn set(first: char, ranges: usize) -> String {
    let c = |n: u32| char::from_u32(first as u32 + n).unwrap();
    let members: String = (0..ranges as u32).map(|n| format!("{}-{}", c(4 * n), c(4 * n + 1))).collect();
    format!("[{members}]")
}

fn ranges() -> Vec<Input> {
    let text = shuffled(&range('a', 'z'), LONGEST, 'z');
    let letters = "[a-bd-eg-hj-km-np-qs-tv-wy-z]";
    let two = shuffled(&of_two_bytes(), LONGEST, '\u{83}');
    let three = shuffled(&of_three_bytes(), LONGEST, '\u{4e03}');
    let spread = |first| format!("(.*{}.*){}", set(first, 60), ".".repeat(40));
    let four_of_nine = format!(".*{}{}", letters.repeat(4), ".".repeat(50));
    let four_of_fifteen = format!(".*{}", set('\u{80}', 15).repeat(4));
    vec![
        over_text("LIKE, 8 sets of 9 ranges", &format!(".*{}", letters.repeat(8)), "OR", &text),
        over_text("LIKE, 4 sets of 9 ranges, 50 dots", &four_of_nine, "OR", &text),
        over_text("LIKE, a set of 60 ranges of 2-byte characters", &spread('\u{80}'), "AND", &two),
        over_text("LIKE, a set of 60 ranges of 3-byte characters", &spread('\u{4e00}'), "AND", &three),
        over_text("LIKE, 4 sets of 15 ranges of 2-byte characters", &four_of_fifteen, "OR", &two),
    ]
}

/// The last element of 256: every element before it is passed for each comparison.
fn of_elements() -> Vec<Input> {
    let of = |name: &str, kind: u16, element: &[u8]| {
        let array = write(ARRAY | kind, &write(kind, element).repeat(256));
        Input::new(name, filled("S[255]LIKE'.*'", "AND"), table(&[(ARRAY | kind, "S")]), array)
    };
    vec![
        of("LIKE of the last of 256 empty texts", STRING, b""),
        of("LIKE of the last of 256 texts of 250 bytes", STRING, "é".repeat(125).as_bytes()),
        of("LIKE of the last of 256 char16", CHAR16, &[0xe9, 0]),
    ]
}
