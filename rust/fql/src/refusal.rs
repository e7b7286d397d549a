//! What a call is refused with.

use std::error::Error;
use std::fmt;

/// Why a call is refused. The discriminants are the numbers of the engine's documents, and the variants stand in
/// the order in which the causes are tried.
#[derive(Clone, Copy, Debug, PartialEq, Eq, Hash)]
#[repr(u64)]
pub enum Cause {
    /// The window of a [`watch`](crate::watch) is not from 1 to 64, or its need not from 1 to the window.
    Window = 42,
    /// The table is longer than 8,192 bytes, or a record of it is malformed or has a bad name.
    Table = 2,
    /// The table has a property name twice.
    NameTwice = 3,
    /// The query is longer than 4,096 bytes.
    QueryLength = 1,
    /// The query is not UTF-8.
    Encoding = 10,
    /// Something is no token, or no query can have this token here.
    Grammar = 11,
    /// A 65th comparison, or a 33rd element of an array literal.
    Count = 12,
    /// A path names no property of the table.
    UnknownName = 20,
    /// A scalar stands where the comparison's form needs an array, or the reverse.
    Shape = 22,
    /// The sides are of different rows of types, or the row doesn't have the operator.
    Kind = 21,
    /// A literal or an index is out of range.
    Range = 23,
    /// A pattern is malformed or too large.
    Pattern = 24,
    /// A datetime literal is malformed.
    Datetime = 25,
    /// The instance is longer than 65,535 bytes.
    InstanceLength = 30,
    /// The instance doesn't conform to the table.
    Instance = 31,
    /// The run doesn't divide into records of kind 0x0300.
    Run = 40,
    /// There are fewer marks than instances in the run.
    MarksLength = 41,
    /// Two queries made into one by [`conjoin`](crate::conjoin) would have more than 64 comparisons or 4,096 bytes.
    ConjunctionSize = 43,
    /// The buffer is shorter than two queries made into one.
    ConjunctionBuffer = 44,
}

impl Cause {
    /// All causes, in the order in which they are tried.
    pub const ALL: [Cause; 19] = [
        Cause::Window,
        Cause::Table,
        Cause::NameTwice,
        Cause::QueryLength,
        Cause::Encoding,
        Cause::Grammar,
        Cause::Count,
        Cause::UnknownName,
        Cause::Shape,
        Cause::Kind,
        Cause::Range,
        Cause::Pattern,
        Cause::Datetime,
        Cause::InstanceLength,
        Cause::Instance,
        Cause::Run,
        Cause::MarksLength,
        Cause::ConjunctionSize,
        Cause::ConjunctionBuffer,
    ];

    /// The number by which the C functions and the program name the cause.
    pub fn number(self) -> u64 {
        self as u64
    }

    /// The cause with this number.
    ///
    /// ```
    /// use fql::Cause;
    ///
    /// assert_eq!(Cause::from_number(20), Some(Cause::UnknownName));
    /// assert_eq!(Cause::from_number(26), None);
    /// ```
    pub fn from_number(number: u64) -> Option<Cause> {
        Cause::ALL.into_iter().find(|cause| cause.number() == number)
    }

    /// The cause in words, as they fit behind a place.
    pub fn words(self) -> &'static str {
        match self {
            Cause::Window => "the window is not from 1 to 64, or the need not from 1 to the window",
            Cause::Table => "the table is longer than 8,192 bytes, or its record here is malformed or has a bad name",
            Cause::NameTwice => "the table has this property name for the second time",
            Cause::QueryLength => "the query is longer than 4,096 bytes",
            Cause::Encoding => "the query is not UTF-8 here",
            Cause::Grammar => "this is no token, or no query can have it here",
            Cause::Count => "this is the 65th comparison of the query, or the 33rd element of an array literal",
            Cause::UnknownName => "the table has no such property",
            Cause::Shape => "this comparison has a scalar where it needs an array, or an array where it needs a scalar",
            Cause::Kind => "this comparison has sides of different types, or an operator that its types don't have",
            Cause::Range => "this literal or index is out of range",
            Cause::Pattern => "this pattern is malformed or too large",
            Cause::Datetime => "this datetime literal is malformed",
            Cause::InstanceLength => "the instance is longer than 65,535 bytes",
            Cause::Instance => "the instance's record here isn't the one that the table asks for",
            Cause::Run => "the run has no whole record of kind 0x0300 here",
            Cause::MarksLength => "there are fewer marks than instances in the run",
            Cause::ConjunctionSize => "both queries in one would have more than 64 comparisons or 4,096 bytes",
            Cause::ConjunctionBuffer => "the buffer is shorter than both queries in one",
        }
    }
}

/// A refusal: why, and where.
///
/// ```
/// let refusal = fql::check(b"On = TRUE", b"").unwrap_err();
/// assert_eq!(refusal, fql::Refusal { cause: fql::Cause::Table, place: 0 });
/// assert!(refusal.to_string().starts_with("refused 2 at 0: the table "));
/// ```
#[derive(Clone, Copy, Debug, PartialEq, Eq, Hash)]
pub struct Refusal {
    /// Why the call is refused.
    pub cause: Cause,
    /// The offset in bytes of what is at fault: in the table for [`Cause::Table`] and [`Cause::NameTwice`], in the
    /// instance for [`Cause::Instance`], in the run for [`Cause::Run`], in the query otherwise. It is 0 where a whole
    /// is at fault, a number ([`Cause::Window`]) or a length ([`Cause::ConjunctionSize`],
    /// [`Cause::ConjunctionBuffer`]), and the length of a text or of records where something is missing at their end.
    pub place: u64,
}

impl Refusal {
    /// The refusal that a call came back with, if it did.
    ///
    /// # Panics
    ///
    /// If the engine hands back a number that is no cause's, which it is proved never to do.
    pub(crate) fn returned(number: u64, place: u64) -> Option<Refusal> {
        if number == 0 {
            return None;
        }
        let cause = Cause::from_number(number).unwrap_or_else(|| panic!("{number} is no cause's number"));
        Some(Refusal { cause, place })
    }
}

impl fmt::Display for Refusal {
    fn fmt(&self, f: &mut fmt::Formatter) -> fmt::Result {
        write!(f, "refused {} at {}: {}", self.cause.number(), self.place, self.cause.words())
    }
}

impl Error for Refusal {}

#[cfg(test)]
mod tests {
    use super::*;

    #[test]
    fn causes_have_their_numbers_in_the_order_in_which_they_are_tried() {
        let numbers = Cause::ALL.map(Cause::number);
        assert_eq!(numbers, [42, 2, 3, 1, 10, 11, 12, 20, 22, 21, 23, 24, 25, 30, 31, 40, 41, 43, 44]);
    }

    #[test]
    fn every_cause_has_words_of_its_own() {
        for (n, cause) in Cause::ALL.into_iter().enumerate() {
            assert_eq!(Cause::ALL.iter().position(|other| other.words() == cause.words()), Some(n));
        }
    }

    #[test]
    fn numbers_of_no_cause() {
        for number in [0, 4, 9, 13, 19, 26, 29, 32, 39, 45, 258, u64::MAX] {
            assert_eq!(Cause::from_number(number), None);
        }
    }
}
