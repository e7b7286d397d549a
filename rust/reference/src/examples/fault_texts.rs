//! Numbers and places with the part that they show (01, "Fault text").

use crate::FaultText;

pub const QUERY: &[u8] = b"On = TRUE AND";
pub const TABLE: &[u8] = b"table bytes of any content\xff";

pub struct FaultTextExample {
    pub number: u64,
    pub place: u64,
    pub expected: FaultText<'static>,
}

/// Every number from 0 to 42, and some whose lowest bytes are a cause's; of each text the start, places inside, the end
/// and places past it. The query has 13 bytes, the table 27.
pub fn examples() -> Vec<FaultTextExample> {
    let mut out = Vec::new();
    let mut push = |number, place, expected| out.push(FaultTextExample { number, place, expected });
    for number in [2, 3] {
        push(number, 0, FaultText::Table(TABLE));
        push(number, 6, FaultText::Table(b"bytes of any content\xff"));
        push(number, 26, FaultText::Table(b"\xff"));
        push(number, 27, FaultText::Table(b""));
        push(number, 28, FaultText::Nothing);
        push(number, u64::MAX, FaultText::Nothing);
    }
    for number in [1].into_iter().chain(4..=25) {
        push(number, 0, FaultText::Query(QUERY));
        push(number, 5, FaultText::Query(b"TRUE AND"));
        push(number, 12, FaultText::Query(b"D"));
        push(number, 13, FaultText::Query(b""));
        push(number, 14, FaultText::Nothing);
        push(number, 27, FaultText::Nothing);
        push(number, 1 << 32, FaultText::Nothing);
        push(number, u64::MAX, FaultText::Nothing);
    }
    for number in [0].into_iter().chain(26..=42).chain([255, 256, 258, 259, 266, 1 << 32 | 2, 1 << 63 | 11, u64::MAX]) {
        for place in [0, 5, 13, 14, 27, 28, u64::MAX] {
            push(number, place, FaultText::Nothing);
        }
    }
    out
}
