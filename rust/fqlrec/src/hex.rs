//! Bytes as pairs of hex digits.

use crate::line::Line;
use crate::problem::Problem;

pub fn show(bytes: &[u8]) -> String {
    bytes.iter().map(|byte| format!("{byte:02X}")).collect()
}

/// Pairs of hex digits, perhaps none.
pub fn read(line: &mut Line) -> Result<Vec<u8>, Problem> {
    let start = line.offset();
    let digits = line.word();
    pairs(line, start, digits)
}

/// `0x` and pairs of hex digits, perhaps none, as octets are written in a query.
pub fn read_octets(line: &mut Line) -> Result<Vec<u8>, Problem> {
    let start = line.offset();
    match line.word().strip_prefix("0x") {
        Some(digits) => pairs(line, start + 2, digits),
        None => Err(line.problem_at(start, "`0x` and pairs of hex digits are needed here".to_owned())),
    }
}

fn pairs(line: &Line, start: usize, digits: &str) -> Result<Vec<u8>, Problem> {
    if let Some(wrong) = digits.find(|c: char| !c.is_ascii_hexdigit()) {
        return Err(line.problem_at(start + wrong, "this is no hex digit".to_owned()));
    }
    if digits.len() % 2 == 1 {
        return Err(line.problem_at(start, "hex digits come in pairs, and the last of these stands alone".to_owned()));
    }
    let pair = |n: usize| u8::from_str_radix(&digits[n..n + 2], 16).unwrap();
    Ok((0..digits.len()).step_by(2).map(pair).collect())
}

/// `0x` and exactly so many hex digits, as a number.
pub fn read_number(line: &mut Line, digits: usize) -> Result<u64, Problem> {
    let start = line.offset();
    let hex = line.word().strip_prefix("0x").filter(|hex| hex.len() == digits);
    let number = hex.and_then(|hex| u64::from_str_radix(hex, 16).ok());
    number.ok_or_else(|| line.problem_at(start, format!("`0x` and {digits} hex digits are needed here")))
}
