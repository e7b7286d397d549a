//! Two queries made into one, on the engine and on the second evaluator: pairs with hand-written texts, every pair of
//! small shapes, random pairs, and bytes of any content.

mod any_bytes;
#[path = "../common/mod.rs"]
mod common;
mod examples;
mod hold;
mod random;
mod seen;
mod shapes;
