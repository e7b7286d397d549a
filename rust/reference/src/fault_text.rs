//! The text at a fault (01, "What can go wrong with a call", last sentence).

#[derive(Clone, Copy, Debug, PartialEq, Eq)]
pub enum FaultText<'a> {
    Nothing,
    Query(&'a [u8]),
    Table(&'a [u8]),
}

/// Table for 2 and 3, query for 1 to 25 otherwise; nothing for other numbers or a place past the end.
pub fn fault_text<'a>(query: &'a [u8], table: &'a [u8], number: u64, place: u64) -> FaultText<'a> {
    let from = |text: &'a [u8]| usize::try_from(place).ok().and_then(|place| text.get(place..));
    match number {
        2 | 3 => from(table).map_or(FaultText::Nothing, FaultText::Table),
        1..=25 => from(query).map_or(FaultText::Nothing, FaultText::Query),
        _ => FaultText::Nothing,
    }
}
