//! How many columns of a terminal a character takes. The ranges are those of common scripts; a rare character that is
//! missing here only moves the caret a little.

/// Marks that a terminal sets above or below the character before, and joiners.
const WITHOUT_COLUMN: [(u32, u32); 12] = [
    (0x0300, 0x036f),
    (0x0483, 0x0489),
    (0x0591, 0x05bd),
    (0x0610, 0x061a),
    (0x064b, 0x065f),
    (0x1ab0, 0x1aff),
    (0x1dc0, 0x1dff),
    (0x200b, 0x200f),
    (0x20d0, 0x20ff),
    (0xfe00, 0xfe0f),
    (0xfe20, 0xfe2f),
    (0xe0100, 0xe01ef),
];

/// East Asian wide characters and emoji.
const TWO_COLUMNS: [(u32, u32); 11] = [
    (0x1100, 0x115f),
    (0x2e80, 0x303e),
    (0x3041, 0x33ff),
    (0x3400, 0x4dbf),
    (0x4e00, 0xa4cf),
    (0xac00, 0xd7a3),
    (0xf900, 0xfaff),
    (0xfe30, 0xfe6f),
    (0xff00, 0xff60),
    (0x1f300, 0x1faff),
    (0x20000, 0x3fffd),
];

pub fn columns_of(c: char) -> usize {
    let within = |ranges: &[(u32, u32)]| ranges.iter().any(|&(first, last)| (first..=last).contains(&u32::from(c)));
    match c {
        _ if within(&WITHOUT_COLUMN) => 0,
        _ if within(&TWO_COLUMNS) => 2,
        _ => 1,
    }
}
