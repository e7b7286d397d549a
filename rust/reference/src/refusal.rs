//! What a call is refused with (01, "What can go wrong with a call").

use crate::record::Fault;

#[derive(Clone, Copy, Debug, PartialEq, Eq)]
pub struct Refusal {
    pub number: u64,
    /// An offset in bytes, in the text or the records that the number speaks of.
    pub place: u64,
}

impl From<Fault> for Refusal {
    fn from((number, place): Fault) -> Self {
        Refusal { number, place }
    }
}

/// Refuses with this number at this offset unless the rule holds.
pub(crate) fn require(rule: bool, number: u64, offset: usize) -> Result<(), Refusal> {
    match rule {
        true => Ok(()),
        false => Err(Refusal { number, place: offset as u64 }),
    }
}
