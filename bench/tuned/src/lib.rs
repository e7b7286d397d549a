//! An unproved engine written for speed, as a good agent would have it: table and query are read once into a program,
//! each instance is walked once, and LIKE runs an automaton that is built as texts ask for it. It gives the same
//! refusals, verdicts and steps as the proved engine, allocates freely and shares no code with it or with the second
//! evaluator.
#![forbid(unsafe_code)]

mod automaton;
mod bytes;
mod check;
mod classes;
mod datetime;
mod elements;
mod joins;
mod kind;
mod literal;
mod mark;
mod name;
mod note;
mod operation;
mod pattern;
mod program;
mod refusal;
mod string;
mod syntax;
mod table;
mod text;
mod token;
mod value;
mod walk;

pub use check::check;
pub use mark::Totals;
pub use program::{Answer, Program};
pub use refusal::Refusal;

/// Verdict and steps of a query on an instance, both read for this one call.
pub fn evaluate(query: &[u8], table: &[u8], instance: &[u8]) -> Result<Answer, Refusal> {
    Program::new(query, table)?.evaluate(instance)
}

/// The marks of a run, with the query read for this one call.
pub fn mark(query: &[u8], table: &[u8], run: &[u8], marks: &mut [u8]) -> Result<Totals, Refusal> {
    Program::new(query, table)?.mark(run, marks)
}
