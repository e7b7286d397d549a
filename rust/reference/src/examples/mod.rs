//! Examples with the answers written out by hand: those of 01 and of DSP0212, and for each rule inputs on both sides of
//! it. The second evaluator and the engine are both held to them.

pub mod conjunctions;
pub mod datetimes;
pub mod dsp0212;
pub mod fault_texts;
pub mod joins;
pub mod kinds;
pub mod limits;
pub mod literals;
pub mod meaning;
pub mod named;
pub mod patterns;
pub mod precedence;
pub mod programs;
pub mod records;
pub mod runs;
pub mod sample;
pub mod setting;
pub mod spans;
pub mod text;
pub mod unknown_digits;
pub mod watches;
pub mod widths;
pub mod wrong_turns;

use crate::{Answer, Refusal};
pub use setting::Setting;

/// What a call of evaluate gives.
#[derive(Clone, Copy, Debug, PartialEq, Eq)]
pub enum Expected {
    /// Included or excluded, in so many steps.
    Included(u64),
    Excluded(u64),
    /// The papers say no more than that the query is accepted.
    Accepted,
    /// A number and a place.
    Refused(u64, u64),
}

pub struct Example {
    pub query: Vec<u8>,
    pub table: Vec<u8>,
    pub instance: Vec<u8>,
    pub expected: Expected,
}

impl Expected {
    pub fn is(self, found: Result<Answer, Refusal>) -> bool {
        match (self, found) {
            (Expected::Included(steps), Ok(answer)) => answer == Answer { included: true, steps },
            (Expected::Excluded(steps), Ok(answer)) => answer == Answer { included: false, steps },
            (Expected::Accepted, Ok(_)) => true,
            (Expected::Refused(number, place), Err(refusal)) => refusal == Refusal { number, place },
            _ => false,
        }
    }
}

/// All examples, by what they are about.
pub fn all() -> Vec<(&'static str, Vec<Example>)> {
    vec![
        ("sample", sample::examples()),
        ("DSP0212", dsp0212::examples()),
        ("wrong turns", wrong_turns::examples()),
        ("records", records::examples()),
        ("text", text::examples()),
        ("limits", limits::examples()),
        ("literals", literals::examples()),
        ("kinds", kinds::examples()),
        ("widths", widths::examples()),
        ("meaning", meaning::examples()),
        ("joins", joins::examples()),
        ("datetimes", datetimes::examples()),
        ("unknown digits", unknown_digits::examples()),
        ("spans", spans::examples()),
        ("patterns", patterns::examples()),
        ("precedence", precedence::examples()),
    ]
}
