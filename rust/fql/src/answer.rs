//! What a call answers.

/// Whether an instance passes a filter.
#[derive(Clone, Copy, Debug, PartialEq, Eq, Hash)]
pub enum Verdict {
    /// The filter holds of the instance.
    Included,
    /// It doesn't.
    Excluded,
}

/// The answer of an evaluation.
#[derive(Clone, Copy, Debug, PartialEq, Eq, Hash)]
pub struct Answer {
    /// Whether the instance passes the filter.
    pub verdict: Verdict,
    /// What the evaluation took: one for each comparison that was judged, and one for each pair of elements, element or
    /// character that it looked at.
    pub steps: u64,
}

/// How many instances of a run got which mark.
#[derive(Clone, Copy, Debug, PartialEq, Eq, Hash)]
pub struct Totals {
    /// Marked with [`INCLUDED`].
    pub included: u64,
    /// Marked with [`EXCLUDED`].
    pub excluded: u64,
    /// Marked with [`FAILED`].
    pub failed: u64,
}

/// How many instances of a run got which mark of a watch.
#[derive(Clone, Copy, Debug, PartialEq, Eq, Hash)]
pub struct WatchTotals {
    /// Marked with 1: enough of the last instances are included.
    pub ones: u64,
    /// Marked with 0.
    pub zeros: u64,
}

/// The mark of an instance that the filter includes.
pub const INCLUDED: u8 = 1;
/// The mark of an instance that the filter excludes.
pub const EXCLUDED: u8 = 0;
/// The mark of an instance that doesn't conform to the table.
pub const FAILED: u8 = 255;

/// The part of a text or of records that a refusal is about.
#[derive(Clone, Copy, Debug, PartialEq, Eq, Hash)]
pub enum FaultText<'a> {
    /// The number is of neither query nor table, or the place is past the end.
    Nothing,
    /// The query from the place on.
    Query(&'a [u8]),
    /// The table from the place on.
    Table(&'a [u8]),
}

impl<'a> FaultText<'a> {
    /// The bytes, none for [`FaultText::Nothing`].
    pub fn bytes(self) -> &'a [u8] {
        match self {
            FaultText::Nothing => &[],
            FaultText::Query(bytes) | FaultText::Table(bytes) => bytes,
        }
    }
}
