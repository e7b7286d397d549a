//! The place of a fault in a query: its line and column, and an excerpt of the text.

use crate::columns::columns_of;

/// Tabs go to the next multiple of this many columns.
const TAB: usize = 8;
/// A longer line is cut on both sides of the place, so that it fits a terminal.
const LONGEST: usize = 100;
const BEFORE: usize = 60;

pub struct Place {
    /// From 1.
    pub line: usize,
    /// From 1, as a terminal shows the line.
    pub column: usize,
    /// The line, and a line with a caret below the place; before a blank line the last that isn't.
    pub excerpt: Vec<String>,
}

/// What is shown for a character, or for a byte that is of none.
struct Cell {
    /// The offset in the line after its bytes.
    end: usize,
    shown: String,
    width: usize,
}

/// The place at an offset, which may be the text's end.
pub fn place(text: &[u8], offset: usize) -> Place {
    let before = &text[..offset];
    let start = before.iter().rposition(|b| *b == b'\n').map_or(0, |n| n + 1);
    let line = text[start..].split(|b| *b == b'\n').next().unwrap();
    let cells = cells(line);
    let at = cells.iter().filter(|cell| cell.end <= offset - start).count();
    let mut lines = excerpt(&cells, at).to_vec();
    if line.trim_ascii().is_empty() {
        lines.splice(0..0, last_line(&text[..start]));
    }
    Place { line: 1 + before.iter().filter(|b| **b == b'\n').count(), column: 1 + width(&cells[..at]), excerpt: lines }
}

/// The last line that isn't blank, as far as its end can be shown.
fn last_line(text: &[u8]) -> Option<String> {
    let line = text.split(|b| *b == b'\n').rfind(|line| !line.trim_ascii().is_empty())?;
    let cells = cells(line);
    let [shown, _] = excerpt(&cells, cells.len());
    Some(shown)
}

fn width(cells: &[Cell]) -> usize {
    cells.iter().map(|cell| cell.width).sum()
}

/// How many of the cells go into so many columns.
fn fitting<'a>(cells: impl Iterator<Item = &'a Cell>, columns: usize) -> usize {
    let ends = cells.scan(0, |end, cell| {
        *end += cell.width;
        Some(*end)
    });
    ends.take_while(|end| *end <= columns).count()
}

fn excerpt(cells: &[Cell], at: usize) -> [String; 2] {
    let (mut first, mut last) = (0, cells.len());
    if width(cells) > LONGEST {
        first = at - fitting(cells[..at].iter().rev(), BEFORE);
        last = at + fitting(cells[at..].iter(), LONGEST - width(&cells[first..at]));
    }
    let cut = |is_cut: bool| if is_cut { "..." } else { "" };
    let (left, right) = (cut(first > 0), cut(last < cells.len()));
    let shown: String = cells[first..last].iter().map(|cell| cell.shown.as_str()).collect();
    let column = left.len() + width(&cells[first..at]);
    [format!("{left}{shown}{right}"), format!("{:column$}^", "")]
}

/// The cells of a line, without the CR that may end it.
fn cells(line: &[u8]) -> Vec<Cell> {
    let line = line.strip_suffix(b"\r").unwrap_or(line);
    let mut cells: Vec<Cell> = Vec::new();
    let mut push = |length: usize, (shown, columns): (String, usize)| {
        let end = cells.last().map_or(0, |cell| cell.end) + length;
        cells.push(Cell { end, shown, width: columns });
    };
    let mut column = 0;
    for chunk in line.utf8_chunks() {
        for c in chunk.valid().chars() {
            let shown = shown(c, column);
            column += shown.1;
            push(c.len_utf8(), shown);
        }
        for byte in chunk.invalid() {
            column += 4;
            push(1, (format!("\\x{byte:02x}"), 4));
        }
    }
    cells
}

/// What is shown for a character in this column, and how wide it is.
fn shown(c: char, column: usize) -> (String, usize) {
    match c {
        '\t' => {
            let width = TAB - column % TAB;
            (" ".repeat(width), width)
        }
        c if c.is_control() => {
            let escaped = c.escape_unicode().to_string();
            (escaped.clone(), escaped.len())
        }
        c => (c.to_string(), columns_of(c)),
    }
}

#[cfg(test)]
mod tests {
    use super::*;

    fn shown(text: &str, offset: usize) -> (usize, usize, String, String) {
        let Place { line, column, excerpt } = place(text.as_bytes(), offset);
        let [text, caret] = excerpt.try_into().unwrap();
        (line, column, text, caret)
    }

    #[test]
    fn in_one_line() {
        assert_eq!(shown("On = TRUE", 5), (1, 6, "On = TRUE".into(), "     ^".into()));
        assert_eq!(shown("On = TRUE", 0), (1, 1, "On = TRUE".into(), "^".into()));
    }

    #[test]
    fn at_the_end() {
        assert_eq!(shown("On = TRUE AND", 13), (1, 14, "On = TRUE AND".into(), "             ^".into()));
        assert_eq!(shown("", 0), (1, 1, "".into(), "^".into()));
    }

    #[test]
    fn in_a_blank_line() {
        let Place { line, column, excerpt } = place(b"On =\r\n\n  ", 9);
        assert_eq!((line, column), (3, 3));
        assert_eq!(excerpt, ["On =", "  ", "  ^"]);
        assert_eq!(shown("\n\n", 2), (3, 1, "".into(), "^".into()));
    }

    #[test]
    fn in_one_of_several_lines() {
        let text = "On = TRUE AND\r\nTemp = x\nOR";
        assert_eq!(shown(text, 22), (2, 8, "Temp = x".into(), "       ^".into()));
        assert_eq!(shown(text, 10), (1, 11, "On = TRUE AND".into(), "          ^".into()));
        assert_eq!(shown(text, 26), (3, 3, "OR".into(), "  ^".into()));
    }

    #[test]
    fn after_tabs() {
        assert_eq!(shown("\tOn\t= x", 6), (1, 19, "        On      = x".into(), "                  ^".into()));
    }

    #[test]
    fn after_characters_of_other_widths() {
        assert_eq!(shown("'\u{e9}' x", 5), (1, 5, "'\u{e9}' x".into(), "    ^".into()));
        assert_eq!(shown("'\u{4e2d}\u{6587}' x", 9), (1, 8, "'\u{4e2d}\u{6587}' x".into(), "       ^".into()));
        assert_eq!(shown("'e\u{301}' x", 6), (1, 5, "'e\u{301}' x".into(), "    ^".into()));
        assert_eq!(shown("'\u{1d11e}' x", 7), (1, 5, "'\u{1d11e}' x".into(), "    ^".into()));
    }

    #[test]
    fn at_bytes_that_are_no_text() {
        let Place { line, column, excerpt } = place(b"\xff\x1b\xe2\x82'", 4);
        assert_eq!((line, column), (1, 19));
        assert_eq!(excerpt, [r"\xff\u{1b}\xe2\x82'", "                  ^"]);
    }

    #[test]
    fn inside_a_character() {
        assert_eq!(shown("a\u{e9}b", 2), (1, 2, "a\u{e9}b".into(), " ^".into()));
    }

    #[test]
    fn in_a_long_line() {
        let text = "x".repeat(4_097);
        assert_eq!(shown(&text, 0), (1, 1, "x".repeat(100) + "...", "^".into()));
        assert_eq!(shown(&text, 2_000), (1, 2_001, format!("...{}...", "x".repeat(100)), " ".repeat(63) + "^"));
        assert_eq!(shown(&text, 4_097), (1, 4_098, format!("...{}", "x".repeat(60)), " ".repeat(63) + "^"));
        assert_eq!(shown(&text[..100], 100), (1, 101, "x".repeat(100), " ".repeat(100) + "^"));
    }
}
