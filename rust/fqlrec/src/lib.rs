//! Tables and runs of the filter engine as readable text, refusals explained, runs watched, and queries joined.
//!
//! A text is a table and the instances of a run:
//!
//! - `class NAME` opens the table. Below it, indented, stands a property on each line, `NAME TYPE` or `NAME TYPE[]`,
//!   with one of the types boolean, uint8, uint16, uint32, uint64, sint8, sint16, sint32, sint64, real32, real64,
//!   string, char16, octets, datetime, reference.
//! - `instance` opens an instance. Below it, indented, stand values, `NAME = VALUE`, in the table's order; one that
//!   ends early is an instance with fewer records.
//! - Values are `TRUE`, `-5`, `0.5`, `'text'` with the escapes of a query, `0x0102` for octets, `{3, NULL}` for an
//!   array, and `NULL`. A real that isn't finite is written by its bits, as `0x7FF0000000000000`.
//! - A datetime is written as a text: `'20051003112233.000000+000'` is a timestamp with its minutes from UTC, and
//!   `'00000001112233.000000:000'` an interval of days and a time. `*` stands for a digit that isn't known: from the
//!   start of a field, or from any microsecond digit, on up to the last microsecond digit, as in
//!   `'200510031122**.******+000'` for some moment of that minute. The text is stored as it is; one that is no datetime
//!   makes an instance that doesn't conform.
//! - `record 0x0118 0A0B` is a record by its kind and body, in place of a property, a value or an instance;
//!   `bytes 0A0B` are bytes that are no record, at the end of a table, an instance or the run. With `table` in place of
//!   `class` a table starts without a class. So every file has a text, malformed ones included.
//! - `#` starts a comment.
//!
//! ```
//! let text = "\
//! class P
//!     On   boolean
//!     Dev  uint64[]
//! instance
//!     On  = TRUE
//!     Dev = {3, 14}
//! instance
//! ";
//! let files = fqlrec::read(text.as_bytes()).unwrap();
//! assert_eq!(files.table, b"\x01\0\0\x02P\x02\0\x01\0On\x03\0\x18\x01Dev");
//! assert_eq!(fqlrec::show(&files), text);
//! ```

mod columns;
mod explain;
mod explanation;
mod faulty;
mod hex;
mod integer;
mod join;
mod line;
mod named;
mod place;
mod problem;
mod quoted;
mod read;
mod records;
mod refused;
mod show;
mod table;
mod types;
mod value;
mod watch;

pub use explain::explain;
pub use explanation::Explanation;
pub use join::join;
pub use problem::Problem;
pub use read::read;
pub use show::show;
pub use watch::watch;

/// A table and a run as bytes.
#[derive(Clone, Debug, Default, PartialEq, Eq)]
pub struct Files {
    pub table: Vec<u8>,
    pub run: Vec<u8>,
}
