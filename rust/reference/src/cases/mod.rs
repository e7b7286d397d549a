//! Random cases for a comparison of two evaluators: a query, a table and an instance, and where it is known by the way
//! the case was made, what the answer has to be.

mod comparison;
pub mod conjoin;
mod datetime;
mod limit;
mod literal;
mod loose;
pub mod named;
mod operands;
mod pattern;
pub mod run;
mod source;
mod spans;
mod spoil;
pub mod spread;
mod table;
mod tokens;
mod unknown_digits;
mod value;
pub mod watch;
pub mod wide;
pub mod widened;
mod wrong;

use crate::queries;
use crate::random::Random;
use crate::{Answer, Refusal};
use source::Source;

/// What a case was made to give.
#[derive(Clone, Copy, Debug, PartialEq, Eq)]
pub enum Intended {
    /// Anything; the evaluators only have to agree.
    Unknown,
    /// Included or excluded.
    Answer,
    /// A number and a place.
    Refusal(u64, u64),
}

#[derive(Clone)]
pub struct Case {
    /// How the case was made.
    pub sort: &'static str,
    pub query: Vec<u8>,
    pub table: Vec<u8>,
    pub instance: Vec<u8>,
    pub intended: Intended,
}

impl Case {
    pub fn is_intended(&self, found: Result<Answer, Refusal>) -> bool {
        match self.intended {
            Intended::Unknown => true,
            Intended::Answer => found.is_ok(),
            Intended::Refusal(number, place) => found == Err(Refusal { number, place }),
        }
    }
}

/// A query, a table and an instance.
pub type Input<'a> = [&'a [u8]; 3];

/// A line of a test that calls a function with these bytes.
pub fn call(function: &str, slices: &[&[u8]]) -> String {
    let literals: Vec<String> = slices.iter().map(|bytes| format!("b\"{}\"", bytes.escape_ascii())).collect();
    format!("{function}({});", literals.join(", "))
}

pub fn random(r: &mut Random) -> Case {
    match r.below(100) {
        0..=43 => well_typed(r),
        44..=49 => damaged_query(r),
        50..=53 => damaged_table(r),
        54..=58 => damaged_instance(r),
        59..=61 => spoil::table(r),
        62..=67 => spoil::instance(r),
        68..=81 => wrongly_typed(r),
        82..=87 => loosely_typed(r),
        88..=96 => limit::case(r),
        _ => grammatical(r),
    }
}

/// A query that the check accepts, and an instance that conforms.
fn well_typed(r: &mut Random) -> Case {
    let source = Source::random(r);
    let query = comparison::query(r, &source);
    // A table without properties knows no name.
    let intended = if source.table.properties.is_empty() { Intended::Unknown } else { Intended::Answer };
    source.case("well-typed", query, intended)
}

/// A query that the check accepts; now and then one with any property beside any literal, or a damaged one.
fn mostly_accepted(r: &mut Random, source: &Source) -> Vec<u8> {
    let query = comparison::query(r, source);
    match r.below(12) {
        0 if !source.table.properties.is_empty() => {
            let tokens = loose::comparison(r, source);
            tokens::write(r, &tokens).0
        }
        1 => queries::damaged(r, &String::from_utf8(query).unwrap()),
        _ => query,
    }
}

/// One comparison among others fails for a known cause, at a known place.
fn wrongly_typed(r: &mut Random) -> Case {
    let source = Source::of_all_types(r);
    let number = 20 + r.below(6) as u64;
    loop {
        let mut comparisons: Vec<tokens::Tokens> =
            (0..r.below(3)).filter_map(|_| comparison::any(r, &source)).collect();
        comparisons.push(wrong::comparison(r, &source, number));
        // What follows may be anything: the first comparison that fails decides.
        for _ in 0..r.below(3) {
            comparisons.push(loose::comparison(r, &source));
        }
        let tokens = comparison::joined(r, comparisons);
        let (query, place) = tokens::write(r, &tokens);
        if query.len() <= 4_096 {
            let case = source.case("wrongly typed", query, Intended::Refusal(number, place.unwrap()));
            return if r.chance(6) { Case { instance: spoil::instance(r).instance, ..case } } else { case };
        }
    }
}

/// Any property in any place, beside any literal.
fn loosely_typed(r: &mut Random) -> Case {
    let source = Source::of_all_types(r);
    let n = 1 + r.below(2);
    let comparisons = (0..n).map(|_| loose::comparison(r, &source)).collect();
    let tokens = comparison::joined(r, comparisons);
    let query = tokens::write(r, &tokens).0;
    source.case("loosely typed", query, Intended::Unknown)
}

fn damaged_query(r: &mut Random) -> Case {
    let mut case = well_typed(r);
    let text = String::from_utf8(case.query).unwrap();
    case.query = if r.chance(3) { r.damage(text.as_bytes()) } else { queries::damaged(r, &text) };
    Case { sort: "damaged query", intended: Intended::Unknown, ..case }
}

fn damaged_table(r: &mut Random) -> Case {
    let mut case = well_typed(r);
    case.table = r.damage(&case.table);
    Case { sort: "damaged table", intended: Intended::Unknown, ..case }
}

fn damaged_instance(r: &mut Random) -> Case {
    let mut case = well_typed(r);
    case.instance = r.damage(&case.instance);
    if r.chance(8) {
        case.query = r.damage(&case.query);
    }
    Case { sort: "damaged instance", intended: Intended::Unknown, ..case }
}

/// A text by the grammar alone, over a class that knows most of its names.
fn grammatical(r: &mut Random) -> Case {
    let source = Source::with_names(r, &["U", "Us", "S", "Name", "Temp_2", "_x1", "Dev", "notany", "e5", "B"]);
    let text = queries::well_formed(r);
    let query = if r.chance(2) { queries::damaged(r, &text) } else { text.into_bytes() };
    source.case("grammatical", query, Intended::Unknown)
}
