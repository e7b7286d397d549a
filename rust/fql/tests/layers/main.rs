//! The engine's lower layers, each by questions whose answers depend on it alone, beside independent code: the standard
//! library's UTF-8, numbers and reals, a calendar that counts days, and the readers of the second evaluator.

mod ask;
mod calendar;
#[path = "../common/mod.rs"]
mod common;
mod datetime;
mod indices;
mod instances;
mod integer;
mod joins;
mod made;
mod names;
mod octets;
mod pattern;
mod queries;
mod quoted;
mod real;
mod seen;
mod spans;
mod tables;
mod tokens;
mod twelve;
mod unicode;
mod unknown_digits;
mod wide;
mod wide_runs;
mod widths;
