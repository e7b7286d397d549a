//! A second reading of the papers, for comparison in tests. It is written for plainness, allocates freely and shares no
//! code, table or definition with the proved engine.

pub mod cases;
pub mod check;
pub mod conjoin;
pub mod datetime;
pub mod evaluate;
pub mod examples;
pub mod fault_text;
pub mod instance;
pub mod integer;
pub mod kind;
pub mod literal;
pub mod mark;
pub mod meaning;
pub mod named;
pub mod pattern;
pub mod program;
pub mod queries;
pub mod random;
pub mod record;
pub mod refusal;
pub mod syntax;
pub mod token;
pub mod value;
pub mod watch;

pub use check::check;
pub use conjoin::{conjoin, ConjoinRefusal};
pub use evaluate::{bound, evaluate, Answer, Prepared};
pub use fault_text::{fault_text, FaultText};
pub use mark::{mark, Totals};
pub use named::named_properties;
pub use refusal::Refusal;
pub use watch::{watch, WatchTotals};
