//! Two queries made into one.

use std::error::Error;
use std::fmt;

use crate::raw;
use crate::refusal::Refusal;

/// The longest query that the check accepts, and so the longest that [`conjoin`] writes: a buffer of so many bytes is
/// never too short.
pub const LONGEST_QUERY: usize = 4_096;

/// Which of two queries a refusal is about.
#[derive(Clone, Copy, Debug, PartialEq, Eq, Hash)]
pub enum AtFault {
    /// The first, or the table, which is checked with it.
    First,
    /// The second; the first is accepted.
    Second,
    /// Both are accepted; together they are too long, or the buffer is too short.
    Neither,
}

/// Why two queries aren't made into one.
///
/// ```
/// use fql::{record, types, AtFault, Cause, ConjoinRefusal, Refusal};
///
/// let table = [record::write(record::CLASS, b"P"), record::write(types::BOOLEAN, b"On")].concat();
/// let refused = fql::conjunction(b"On = TRUE", b"On = TRUE OR Of = TRUE", &table).unwrap_err();
/// assert_eq!(refused.at_fault, AtFault::Second);
/// assert_eq!(refused.refusal, Refusal { cause: Cause::UnknownName, place: 13 });
/// assert_eq!(refused.to_string(), "second query: refused 20 at 13: the table has no such property");
/// ```
#[derive(Clone, Copy, Debug, PartialEq, Eq, Hash)]
pub struct ConjoinRefusal {
    /// The query whose check gave the refusal.
    pub at_fault: AtFault,
    /// The check's refusal of that query, with a place in it or in the table; for neither query
    /// [`Cause::ConjunctionSize`](crate::Cause::ConjunctionSize) or
    /// [`Cause::ConjunctionBuffer`](crate::Cause::ConjunctionBuffer).
    pub refusal: Refusal,
}

impl fmt::Display for ConjoinRefusal {
    fn fmt(&self, f: &mut fmt::Formatter) -> fmt::Result {
        let query = match self.at_fault {
            AtFault::First => "first query: ",
            AtFault::Second => "second query: ",
            AtFault::Neither => "",
        };
        write!(f, "{query}{}", self.refusal)
    }
}

impl Error for ConjoinRefusal {}

/// Writes one query that includes exactly the instances that both queries include, and returns its length.
///
/// A query is taken as terms joined by OR, of groups joined by AND; one without brackets is a single group. Each term
/// of the first is written with each of the second, in order: its groups and then the other's, each as it stands
/// between its brackets but without whitespace at its ends. What is written is accepted by [`check`](crate::check)
/// against the same table.
///
/// The queries are checked, the first before the second. If both are accepted, more than 64 comparisons or
/// [`LONGEST_QUERY`] bytes are refused with [`Cause::ConjunctionSize`](crate::Cause::ConjunctionSize), and then a buffer
/// that is too short with [`Cause::ConjunctionBuffer`](crate::Cause::ConjunctionBuffer). Bytes beyond the text keep
/// their values, and a refused call leaves all as they were.
///
/// ```
/// use fql::{record, types, AtFault, Cause, ConjoinRefusal, Refusal};
///
/// let table = [
///     record::write(record::CLASS, b"Fan"),
///     record::write(types::SINT16, b"Temp"),
///     record::write(types::STRING, b"Room"),
/// ]
/// .concat();
/// let (hot, here) = (b"Temp > 90 OR Temp = NULL", b"(Room = 'A1') OR (Room = 'A2')");
///
/// let mut buffer = [b'.'; 100];
/// let length = fql::conjoin(hot, here, &table, &mut buffer).unwrap();
/// let expected = "(Temp > 90 OR Temp = NULL) AND (Room = 'A1') OR (Temp > 90 OR Temp = NULL) AND (Room = 'A2')";
/// assert_eq!(std::str::from_utf8(&buffer[..length]), Ok(expected));
/// assert_eq!(buffer[length..], [b'.'; 8]);
///
/// let refused = fql::conjoin(hot, here, &table, &mut buffer[..length - 1]);
/// let refusal = Refusal { cause: Cause::ConjunctionBuffer, place: 0 };
/// assert_eq!(refused, Err(ConjoinRefusal { at_fault: AtFault::Neither, refusal }));
/// ```
pub fn conjoin(first: &[u8], second: &[u8], table: &[u8], buffer: &mut [u8]) -> Result<usize, ConjoinRefusal> {
    // SAFETY: a slice's pointer is not null, also where its length is 0; `buffer` is lent to this call alone, and the
    // function writes nowhere else.
    let found = unsafe {
        raw::fql_conjoin(
            first.as_ptr(),
            first.len(),
            second.as_ptr(),
            second.len(),
            table.as_ptr(),
            table.len(),
            buffer.as_mut_ptr(),
            buffer.len(),
        )
    };
    let Some(refusal) = Refusal::returned(found.number, found.place) else { return Ok(found.length as usize) };
    let at_fault = match found.query {
        0 => AtFault::Neither,
        1 => AtFault::First,
        2 => AtFault::Second,
        other => panic!("{other} is no query's number"),
    };
    Err(ConjoinRefusal { at_fault, refusal })
}

/// The query that [`conjoin`] writes, in a vector of its own. It is UTF-8, as both queries are.
///
/// ```
/// use fql::{record, types};
///
/// let table = [record::write(record::CLASS, b"P"), record::write(types::SINT16, b"Temp")].concat();
/// let query = fql::conjunction(b"Temp > 0", b" Temp < 90 ", &table).unwrap();
/// assert_eq!(query, b"(Temp > 0) AND (Temp < 90)");
/// assert_eq!(fql::check(&query, &table), Ok(()));
/// ```
pub fn conjunction(first: &[u8], second: &[u8], table: &[u8]) -> Result<Vec<u8>, ConjoinRefusal> {
    let mut text = vec![0; LONGEST_QUERY];
    let length = conjoin(first, second, table, &mut text)?;
    text.truncate(length);
    Ok(text)
}
