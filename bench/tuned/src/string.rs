//! String literals: where they end, and their characters (01, "Query text").

/// The byte at a place, or 0 behind the end, which no rule asks for.
#[inline(always)]
pub fn byte(query: &[u8], at: usize) -> u8 {
    query.get(at).copied().unwrap_or(0)
}

/// Behind the closing quote of the string whose characters start here, in a query that is UTF-8.
pub fn end(query: &[u8], mut at: usize) -> Option<usize> {
    while let Some(&byte) = query.get(at) {
        at = match byte {
            b'\'' => return Some(at + 1),
            b'\\' => escape(query, at + 1)?.1,
            0..0x20 => return None,
            // U+FFFE and U+FFFF are no characters of a string.
            0xef if query[at + 1] == 0xbf && query[at + 2] >= 0xbe => return None,
            _ => at + 1,
        };
    }
    None
}

/// The character that an escape stands for, and where the next one starts.
fn escape(query: &[u8], at: usize) -> Option<(char, usize)> {
    let character = match byte(query, at) {
        b'\\' => '\\',
        b'\'' => '\'',
        b'b' => '\u{8}',
        b't' => '\t',
        b'n' => '\n',
        b'f' => '\u{c}',
        b'r' => '\r',
        b'u' => return code_point(query, at + 1),
        _ => return None,
    };
    Some((character, at + 1))
}

/// Four to six hexadecimal digits.
fn code_point(query: &[u8], at: usize) -> Option<(char, usize)> {
    let digits = query[at..].iter().take(6).map_while(|&byte| char::from(byte).to_digit(16));
    let (count, code) = digits.fold((0, 0), |(count, code), digit| (count + 1, code * 16 + digit));
    if count < 4 {
        return None;
    }
    Some((char::from_u32(code)?, at + count))
}

/// Appends the characters of the string between these quotes.
pub fn unescape(query: &[u8], start: usize, end: usize, out: &mut Vec<u8>) {
    let (mut at, last) = (start + 1, end - 1);
    while at < last {
        let plain = query[at..last].iter().position(|&byte| byte == b'\\').unwrap_or(last - at);
        out.extend_from_slice(&query[at..at + plain]);
        at += plain;
        if at < last {
            let (character, next) = escape(query, at + 1).expect("the string was read before");
            out.extend_from_slice(character.encode_utf8(&mut [0; 4]).as_bytes());
            at = next;
        }
    }
}
