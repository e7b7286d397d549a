//! Safe calls of the proved engine for DMTF's Filter Query Language (DSP0212), by way of the archive that
//! `rt lib` in `crates/fql_export` writes.
//!
//! A filter is a query's text; a table says which properties a class has and of what [types]; an instance holds their
//! values. Tables and instances are [records](record). Every function takes bytes of any content and length, and
//! numbers of any size, and keeps nothing; the engine allocates nothing.
//!
//! ```
//! use fql::record::{self, write};
//! use fql::types::{BOOLEAN, DATETIME, REAL64, SINT64, STRING, UINT64};
//! use fql::{Answer, Cause, Refusal, Verdict};
//!
//! let table = [
//!     write(record::CLASS, b"P"),
//!     write(BOOLEAN, b"On"),
//!     write(SINT64, b"Temp"),
//!     write(record::ARRAY | UINT64, b"Dev"),
//!     write(STRING, b"Name"),
//!     write(DATETIME, b"Since"),
//!     write(REAL64, b"R"),
//! ]
//! .concat();
//! let elements = [write(UINT64, &3u64.to_le_bytes()), write(UINT64, &14u64.to_le_bytes())].concat();
//! let instance = [
//!     write(BOOLEAN, &[1]),
//!     write(SINT64, &(-5i64).to_le_bytes()),
//!     write(record::ARRAY | UINT64, &elements),
//!     write(STRING, b"FAN_2"),
//!     write(DATETIME, b"20051003112233.000000+000"),
//!     write(REAL64, &0.5f64.to_le_bytes()),
//! ]
//! .concat();
//!
//! let filter = b"Temp > 0 AND On = TRUE OR R = .5";
//! assert_eq!(fql::check(filter, &table), Ok(()));
//! let answer = fql::evaluate(filter, &table, &instance);
//! assert_eq!(answer, Ok(Answer { verdict: Verdict::Included, steps: 2 }));
//!
//! let answer = fql::evaluate(b"Dev = {14,3}", &table, &instance);
//! assert_eq!(answer, Ok(Answer { verdict: Verdict::Excluded, steps: 2 }));
//!
//! // A filter that can't be evaluated is refused with the offset of what is wrong.
//! let refused = fql::check(b"Temp < 18446744073709551616", &table);
//! assert_eq!(refused, Err(Refusal { cause: Cause::Range, place: 7 }));
//! ```
#![warn(missing_docs)]

mod answer;
mod conjoin;
mod raw;
pub mod record;
mod refusal;
pub mod types;

pub use answer::{Answer, FaultText, Totals, Verdict, WatchTotals, EXCLUDED, FAILED, INCLUDED};
pub use conjoin::{conjoin, conjunction, AtFault, ConjoinRefusal, LONGEST_QUERY};
pub use refusal::{Cause, Refusal};

/// Whether the query can be evaluated on the instances of the table's class.
///
/// A query that is accepted is answered on every instance that conforms to the table; one that is refused fails on each
/// of them with the same cause and place.
///
/// ```
/// use fql::{record, types, Cause, Refusal};
///
/// let table = [record::write(record::CLASS, b"P"), record::write(types::BOOLEAN, b"On")].concat();
/// assert_eq!(fql::check(b"On = TRUE", &table), Ok(()));
/// assert_eq!(fql::check(b"On = TRUE AND", &table), Err(Refusal { cause: Cause::Grammar, place: 13 }));
/// ```
pub fn check(query: &[u8], table: &[u8]) -> Result<(), Refusal> {
    // SAFETY: here and below, a slice's pointer is not null, also where its length is 0, and the functions read nothing
    // but these bytes.
    let found = unsafe { raw::fql_check(query.as_ptr(), query.len(), table.as_ptr(), table.len()) };
    Refusal::returned(found.number, found.place).map_or(Ok(()), Err)
}

/// Whether the query includes the instance, and in how many steps. Only the properties that the query names count, in
/// any of its comparisons: instances that conform to the table and hold the same records for these have the same answer.
///
/// ```
/// use fql::{record, types, Answer, Cause, Refusal, Verdict};
///
/// let table = [record::write(record::CLASS, b"P"), record::write(types::STRING, b"Name")].concat();
/// let filter = b"Name NOT LIKE 'FAN_.*'";
///
/// let answer = fql::evaluate(filter, &table, &record::write(types::STRING, b"FAN_2"));
/// assert_eq!(answer, Ok(Answer { verdict: Verdict::Excluded, steps: 6 }));
/// assert_eq!(fql::evaluate(filter, &table, b""), Err(Refusal { cause: Cause::Instance, place: 0 }));
/// ```
pub fn evaluate(query: &[u8], table: &[u8], instance: &[u8]) -> Result<Answer, Refusal> {
    let found = unsafe {
        raw::fql_evaluate(query.as_ptr(), query.len(), table.as_ptr(), table.len(), instance.as_ptr(), instance.len())
    };
    if let Some(refusal) = Refusal::returned(found.number, found.place) {
        return Err(refusal);
    }
    let verdict = match found.included {
        0 => Verdict::Excluded,
        1 => Verdict::Included,
        other => panic!("{other} is no verdict"),
    };
    Ok(Answer { verdict, steps: found.steps })
}

/// Evaluates the query on each instance of a run and writes one mark for each: [`INCLUDED`], [`EXCLUDED`] or
/// [`FAILED`].
///
/// Marks beyond the run's instances keep their values, and a refused call leaves all as they were.
///
/// ```
/// use fql::{record, types, Cause, Refusal, Totals};
///
/// let table = [record::write(record::CLASS, b"P"), record::write(types::BOOLEAN, b"On")].concat();
/// let instances = [record::write(types::BOOLEAN, &[1]), record::write(types::BOOLEAN, &[0]), vec![]];
/// let run = instances.map(|body| record::write(record::INSTANCE, &body)).concat();
///
/// let mut marks = [7; 4];
/// let totals = fql::mark(b"On = TRUE", &table, &run, &mut marks);
/// assert_eq!(totals, Ok(Totals { included: 1, excluded: 1, failed: 1 }));
/// assert_eq!(marks, [fql::INCLUDED, fql::EXCLUDED, fql::FAILED, 7]);
///
/// let mut few = [7; 2];
/// assert_eq!(
///     fql::mark(b"On = TRUE", &table, &run, &mut few),
///     Err(Refusal { cause: Cause::MarksLength, place: 0 })
/// );
/// assert_eq!(few, [7; 2]);
/// ```
pub fn mark(query: &[u8], table: &[u8], run: &[u8], marks: &mut [u8]) -> Result<Totals, Refusal> {
    // SAFETY: `marks` is lent to this call alone, and the function writes nowhere else.
    let found = unsafe {
        raw::fql_mark(
            query.as_ptr(),
            query.len(),
            table.as_ptr(),
            table.len(),
            run.as_ptr(),
            run.len(),
            marks.as_mut_ptr(),
            marks.len(),
        )
    };
    match Refusal::returned(found.number, found.place) {
        Some(refusal) => Err(refusal),
        None => Ok(Totals { included: found.included, excluded: found.excluded, failed: found.failed }),
    }
}

/// Whether enough of the last instances are included: writes 1 for an instance of the run if at least `need` of the
/// last `window` instances, up to and with it, are included, else 0.
///
/// Before so many have passed, those that there are count. An instance that doesn't conform to the table takes its
/// place among the last and counts as not included; its own mark is 1 or 0 like any other. The window is from 1 to 64
/// and the need from 1 to the window, or the call is refused with [`Cause::Window`], whatever the bytes are; then it is
/// refused as [`mark`] is. Marks beyond the run's instances keep their values, and a refused call leaves all as they
/// were.
///
/// A window doesn't reach into an earlier call. To go on over batches, lend the last `window - 1` instances again in
/// front of the next ones, and ignore the marks that those get there.
///
/// ```
/// use fql::{record, types, Cause, Refusal, WatchTotals};
///
/// let table = [record::write(record::CLASS, b"Fan"), record::write(types::SINT16, b"Temp")].concat();
/// let reading = |temp: i16| record::write(types::SINT16, &temp.to_le_bytes());
/// // One that is too hot, and later two, with one between them that can't be read.
/// let readings = [reading(60), reading(95), reading(61), reading(62), reading(97), vec![], reading(96), reading(63)];
/// let run = readings.map(|body| record::write(record::INSTANCE, &body)).concat();
///
/// // The alarm is for two of the last three.
/// let mut alarms = [7; 9];
/// let totals = fql::watch(b"Temp > 90", &table, &run, 3, 2, &mut alarms);
/// assert_eq!(totals, Ok(WatchTotals { ones: 1, zeros: 7 }));
/// assert_eq!(alarms, [0, 0, 0, 0, 0, 0, 1, 0, 7]);
///
/// let refused = fql::watch(b"Temp > 90", &table, &run, 3, 4, &mut alarms);
/// assert_eq!(refused, Err(Refusal { cause: Cause::Window, place: 0 }));
/// ```
pub fn watch(
    query: &[u8],
    table: &[u8],
    run: &[u8],
    window: u64,
    need: u64,
    marks: &mut [u8],
) -> Result<WatchTotals, Refusal> {
    // SAFETY: as for `mark`.
    let found = unsafe {
        raw::fql_watch(
            query.as_ptr(),
            query.len(),
            table.as_ptr(),
            table.len(),
            run.as_ptr(),
            run.len(),
            window,
            need,
            marks.as_mut_ptr(),
            marks.len(),
        )
    };
    match Refusal::returned(found.number, found.place) {
        Some(refusal) => Err(refusal),
        None => Ok(WatchTotals { ones: found.ones, zeros: found.zeros }),
    }
}

/// The part of the query or of the table from a refusal's place on, for any number and place: of the table for 2 and 3,
/// of the query for the others from 1 to 25.
///
/// ```
/// use fql::{record, types, FaultText};
///
/// let table = [record::write(record::CLASS, b"P"), record::write(types::BOOLEAN, b"On")].concat();
/// let query = b"On = TRUE OR Zed = 1";
/// let refusal = fql::check(query, &table).unwrap_err();
///
/// let text = fql::fault_text(query, &table, refusal.cause.number(), refusal.place);
/// assert_eq!(text, FaultText::Query(b"Zed = 1"));
/// assert_eq!(fql::fault_text(query, &table, 31, 0), FaultText::Nothing);
/// ```
pub fn fault_text<'a>(query: &'a [u8], table: &'a [u8], number: u64, place: u64) -> FaultText<'a> {
    let part = unsafe { raw::fql_fault_text(query.as_ptr(), query.len(), table.as_ptr(), table.len(), number, place) };
    let (start, end) = (part.start as usize, (part.start + part.length) as usize);
    match (part.source, start, end) {
        (0, 0, 0) => FaultText::Nothing,
        (1, ..) => FaultText::Query(&query[start..end]),
        (2, ..) => FaultText::Table(&table[start..end]),
        other => panic!("{other:?} is no part"),
    }
}
