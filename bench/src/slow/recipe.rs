//! An input as the search changes it: a few comparisons that fill a query, the texts that they meet, and where in an
//! instance there is most of them.

use super::input::{table, Input, COMPARISONS, LENGTH_OF_QUERY};
use super::texts::{cycled, of_three_bytes, of_two_bytes, range, shuffled};
use reference::kind::{ARRAY, DATETIME, NULL, STRING, UINT64};
use reference::random::Random;
use reference::record::write;

/// With a pattern or a text where the braces stand.
const SHAPES: [&str; 16] = [
    "S LIKE'{}'",
    "S LIKE'{}'",
    "S LIKE'{}'",
    "S NOT LIKE'{}'",
    "A[255]LIKE'{}'",
    "S=T",
    "S<>T",
    "S='{}'",
    "EVERY A=T",
    "ANY A='{}'",
    "A=B",
    "P.A<>P.B",
    "N[255]=N[254]",
    "EVERY N>8",
    "EVERY D<'20991003112233.000000+000'",
    "D[255]<>'200510********.******+000'",
];

const PIECES: [&str; 24] = [
    ".*",
    ".",
    "..........",
    "a",
    "b",
    "a?",
    "b*",
    "[a-b]",
    "[^a]",
    "(a|b)",
    "(.a)*",
    "|",
    "||||||||||",
    "(",
    ")",
    ")*",
    "é",
    "[à-ÿ]",
    "一",
    "[一-龥]",
    ".+",
    "[a-bd-eg-hj-k]",
    "(((x)*)*)*",
    "\\\\\\\\",
];

/// Which properties share the instance's bytes.
const BULKS: usize = 5;

#[derive(Clone)]
pub struct Recipe {
    comparisons: Vec<(usize, String)>,
    join: &'static str,
    alphabet: Vec<char>,
    is_cycled: bool,
    bulk: usize,
    /// Further properties with long names in front.
    before: usize,
}

fn pattern(r: &mut Random) -> String {
    (0..1 + r.below(20)).map(|_| r.pick(&PIECES)).collect()
}

fn alphabet(r: &mut Random) -> Vec<char> {
    match r.below(6) {
        0 => vec!['a'],
        1 | 2 => vec!['a', 'b'],
        3 => range('a', 'z'),
        4 => of_two_bytes(),
        _ => of_three_bytes(),
    }
}

impl Recipe {
    /// Known to be slow: where the search starts.
    pub fn known() -> Vec<Recipe> {
        let of = |shape: &str, text: &str, bulk, before| {
            let shape = SHAPES.iter().position(|known| *known == shape).unwrap();
            let comparisons = vec![(shape, text.to_owned())];
            Recipe { comparisons, join: "OR", alphabet: vec!['a', 'b'], is_cycled: false, bulk, before }
        };
        let window = format!(".*a{}", ".".repeat(43));
        vec![
            of("S LIKE'{}'", &window, 0, 0),
            of("S LIKE'{}'", &(window + &"|".repeat(210)), 0, 0),
            of("S<>T", "", 1, 0),
            of("EVERY A=T", "", 2, 0),
            of("S='{}'", &"x".repeat(50), 0, 121),
        ]
    }

    pub fn random(r: &mut Random) -> Recipe {
        let comparisons = (0..1 + r.below(3)).map(|_| (r.below(SHAPES.len()), pattern(r))).collect();
        let (join, is_cycled) = (r.pick(&["AND", "OR"]), r.chance(2));
        Recipe { comparisons, join, alphabet: alphabet(r), is_cycled, bulk: r.below(BULKS), before: 0 }
    }

    /// With one thing changed.
    pub fn changed(&self, r: &mut Random) -> Recipe {
        let mut recipe = self.clone();
        let at = r.below(recipe.comparisons.len());
        match r.below(12) {
            0 => recipe.comparisons[at].0 = r.below(SHAPES.len()),
            1 => recipe.comparisons.push((r.below(SHAPES.len()), pattern(r))),
            2 if recipe.comparisons.len() > 1 => drop(recipe.comparisons.remove(at)),
            3 => recipe.join = r.pick(&["AND", "OR"]),
            4 => recipe.alphabet = alphabet(r),
            5 => recipe.is_cycled = !recipe.is_cycled,
            6 => recipe.bulk = r.below(BULKS),
            7 => recipe.before = r.pick(&[0, 0, 50, 121]),
            8 => recipe.comparisons[at].1 = pattern(r),
            _ => change_pattern(r, &mut recipe.comparisons[at].1),
        }
        recipe
    }

    /// The comparisons in turn, as many as fit.
    pub fn query(&self) -> String {
        let mut query = String::new();
        for (shape, text) in self.comparisons.iter().cycle().take(COMPARISONS) {
            let join = if query.is_empty() { String::new() } else { format!(" {} ", self.join) };
            let comparison = join + &SHAPES[*shape].replace("{}", text);
            if query.len() + comparison.len() > LENGTH_OF_QUERY {
                break;
            }
            query += &comparison;
        }
        query
    }

    fn table(&self) -> Vec<u8> {
        let names: Vec<String> = (0..self.before).map(|n| format!("{}{n:03}", "x".repeat(56))).collect();
        let before = names.iter().map(|name| (UINT64, name.as_str()));
        let own = [(STRING, "S"), (STRING, "T"), (ARRAY | STRING, "A"), (ARRAY | STRING, "B")];
        let others = [(ARRAY | UINT64, "N"), (ARRAY | DATETIME, "D")];
        table(&before.chain(own).chain(others).collect::<Vec<_>>())
    }

    /// Turned around, so that texts of all lengths end alike: a longer one fits where a shorter one did.
    fn text(&self, bytes: usize) -> Vec<u8> {
        let of = if self.is_cycled { cycled } else { shuffled };
        of(&self.alphabet, bytes.max(4), 'b').chars().rev().collect::<String>().into_bytes()
    }

    /// An instance of about so many bytes.
    fn instance(&self, bytes: usize) -> Vec<u8> {
        let bytes = bytes.saturating_sub(4 * (self.before + 16));
        let [s, t, elements] = match self.bulk {
            0 => [bytes, 8, 0],
            1 => [bytes / 2, bytes / 2, 0],
            2 => [8, bytes / 260, (bytes / 260).saturating_sub(4)],
            3 => [8, bytes / 520, (bytes / 520).saturating_sub(4)],
            _ => [8, 8, 0],
        };
        let texts = |n| write(STRING, &self.text(elements)).repeat(if elements >= 4 { n } else { 0 });
        let of = |kind: u16, bytes: usize, body: &[u8]| write(kind, body).repeat((bytes / (4 + body.len())).min(256));
        let rest = if self.bulk == 4 { bytes / 2 } else { 0 };
        [
            write(NULL, b"").repeat(self.before),
            write(STRING, &self.text(s)),
            write(STRING, &self.text(t)),
            write(ARRAY | STRING, &texts(256)),
            write(ARRAY | STRING, &texts(if self.bulk == 3 { 256 } else { 0 })),
            write(ARRAY | UINT64, &of(UINT64, rest, &[9; 8])),
            write(ARRAY | DATETIME, &of(DATETIME, rest, b"200510********.******+000")),
        ]
        .concat()
    }

    /// None where the engine refuses it.
    pub fn input(&self, name: &str, bytes: usize) -> Option<Input> {
        let input = Input::new(name, self.query(), self.table(), self.instance(bytes));
        fql::check(&input.query, &input.table).is_ok().then_some(input)
    }
}

/// Another piece in it, some of it again, or some of it less.
fn change_pattern(r: &mut Random, pattern: &mut String) {
    let characters: Vec<char> = pattern.chars().collect();
    let [mut from, mut to] = [r.below(characters.len() + 1), r.below(characters.len() + 1)];
    if from > to {
        (from, to) = (to, from);
    }
    let part = |range: std::ops::Range<usize>| characters[range].iter().collect::<String>();
    *pattern = match r.below(4) {
        0 => part(0..from) + &part(to..characters.len()),
        1 => part(0..to) + &part(from..characters.len()),
        _ => part(0..from) + r.pick(&PIECES) + &part(from..characters.len()),
    };
}
