//! The tokens of a query, by regular scanning over bytes.

#[derive(Clone, Copy, Debug, PartialEq, Eq)]
pub enum Kind {
    End,
    NoToken,
    Name,
    Reserved(Word),
    Decimal,
    Binary,
    Hex,
    Real,
    Text,
    Compare(Operator),
    Symbol(u8),
}

#[derive(Clone, Copy, Debug, PartialEq, Eq)]
pub enum Word {
    And,
    Any,
    Every,
    False,
    Like,
    Not,
    Null,
    Or,
    True,
}

#[derive(Clone, Copy, Debug, PartialEq, Eq)]
pub enum Operator {
    Equal,
    Unequal,
    Less,
    AtMost,
    Greater,
    AtLeast,
}

#[derive(Clone, Copy, Debug, PartialEq, Eq)]
pub struct Token {
    pub kind: Kind,
    pub start: usize,
    pub end: usize,
}

const WORDS: [(&str, Word); 9] = [
    ("AND", Word::And),
    ("ANY", Word::Any),
    ("EVERY", Word::Every),
    ("FALSE", Word::False),
    ("LIKE", Word::Like),
    ("NOT", Word::Not),
    ("NULL", Word::Null),
    ("OR", Word::Or),
    ("TRUE", Word::True),
];

impl Kind {
    fn is_word_or_number(self) -> bool {
        matches!(self, Kind::Name | Kind::Reserved(_) | Kind::Decimal | Kind::Binary | Kind::Hex | Kind::Real)
    }

    pub fn is_literal(self) -> bool {
        match self {
            Kind::Decimal | Kind::Binary | Kind::Hex | Kind::Real | Kind::Text => true,
            Kind::Reserved(word) => matches!(word, Word::True | Word::False | Word::Null),
            _ => false,
        }
    }
}

/// All tokens of a text, up to the end or to the first place where there is none.
pub fn tokens(text: &[u8]) -> Vec<Token> {
    let mut out: Vec<Token> = Vec::new();
    let mut at = 0;
    loop {
        let mut token = next(text, at);
        if let Some(last) = out.last() {
            let touching = last.end == token.start;
            if touching && last.kind.is_word_or_number() && token.kind.is_word_or_number() {
                token = Token { kind: Kind::NoToken, start: token.start, end: token.start };
            }
        }
        out.push(token);
        if matches!(token.kind, Kind::End | Kind::NoToken) {
            return out;
        }
        at = token.end;
    }
}

fn next(text: &[u8], at: usize) -> Token {
    let start = at + text[at..].iter().take_while(|b| b" \t\r\n".contains(b)).count();
    let rest = &text[start..];
    let (kind, length) = match rest {
        [] => (Kind::End, 0),
        [b'\'', ..] => match string(rest) {
            Some((_, length)) => (Kind::Text, length),
            None => (Kind::NoToken, 0),
        },
        [b, ..] if b.is_ascii_alphabetic() || *b == b'_' => word(rest),
        _ => number(rest).or_else(|| symbol(rest)).unwrap_or((Kind::NoToken, 0)),
    };
    Token { kind, start, end: start + length }
}

fn word(rest: &[u8]) -> (Kind, usize) {
    let length = rest.iter().take_while(|b| b.is_ascii_alphanumeric() || **b == b'_').count();
    let found = WORDS.iter().find(|(name, _)| rest[..length].eq_ignore_ascii_case(name.as_bytes()));
    (found.map_or(Kind::Name, |(_, word)| Kind::Reserved(*word)), length)
}

fn symbol(rest: &[u8]) -> Option<(Kind, usize)> {
    Some(match rest {
        [b'<', b'>', ..] => (Kind::Compare(Operator::Unequal), 2),
        [b'<', b'=', ..] => (Kind::Compare(Operator::AtMost), 2),
        [b'>', b'=', ..] => (Kind::Compare(Operator::AtLeast), 2),
        [b'<', ..] => (Kind::Compare(Operator::Less), 1),
        [b'>', ..] => (Kind::Compare(Operator::Greater), 1),
        [b'=', ..] => (Kind::Compare(Operator::Equal), 1),
        [b, ..] if b"()[]{},.".contains(b) => (Kind::Symbol(*b), 1),
        _ => return None,
    })
}

fn count(rest: &[u8], test: impl Fn(&u8) -> bool) -> usize {
    rest.iter().take_while(|b| test(b)).count()
}

/// The longest number at the start of some bytes.
fn number(rest: &[u8]) -> Option<(Kind, usize)> {
    let sign = usize::from(matches!(rest.first(), Some(b'+' | b'-')));
    let body = &rest[sign..];
    let decimal = count(body, u8::is_ascii_digit);
    let mut best = (decimal > 0).then_some((Kind::Decimal, sign + decimal));
    let mut offer = |kind, length: usize| {
        if best.is_none_or(|(_, longest)| sign + length > longest) {
            best = Some((kind, sign + length));
        }
    };
    let bits = count(body, |b| matches!(b, b'0' | b'1'));
    if bits > 0 && matches!(body.get(bits), Some(b'b' | b'B')) {
        offer(Kind::Binary, bits + 1);
    }
    if let [b'0', b'x' | b'X', digits @ ..] = body {
        let pairs = count(digits, u8::is_ascii_hexdigit) / 2;
        if pairs > 0 {
            offer(Kind::Hex, 2 + 2 * pairs);
        }
    }
    if body.get(decimal) == Some(&b'.') {
        let fraction = count(&body[decimal + 1..], u8::is_ascii_digit);
        if decimal + fraction > 0 {
            let mantissa = decimal + 1 + fraction;
            offer(Kind::Real, mantissa + exponent(&body[mantissa..]));
        }
    }
    best
}

fn exponent(rest: &[u8]) -> usize {
    if !matches!(rest.first(), Some(b'e' | b'E')) {
        return 0;
    }
    let sign = usize::from(matches!(rest.get(1), Some(b'+' | b'-')));
    match count(&rest[1 + sign..], u8::is_ascii_digit) {
        0 => 0,
        digits => 1 + sign + digits,
    }
}

/// The characters of the string literal at the start of some bytes, unescaped, and its length.
pub fn string(rest: &[u8]) -> Option<(String, usize)> {
    let text = match std::str::from_utf8(rest) {
        Ok(text) => text,
        Err(e) => std::str::from_utf8(&rest[..e.valid_up_to()]).unwrap(),
    };
    let mut out = String::new();
    let mut chars = text.char_indices().skip(1).peekable();
    while let Some((at, c)) = chars.next() {
        match c {
            '\'' => return Some((out, at + 1)),
            '\\' => {
                let (_, escape) = chars.next()?;
                match escape {
                    '\\' | '\'' => out.push(escape),
                    'b' => out.push('\u{8}'),
                    't' => out.push('\t'),
                    'n' => out.push('\n'),
                    'f' => out.push('\u{c}'),
                    'r' => out.push('\r'),
                    'u' => {
                        let mut digits = String::new();
                        while digits.len() < 6 && chars.peek().is_some_and(|(_, d)| d.is_ascii_hexdigit()) {
                            digits.push(chars.next()?.1);
                        }
                        if digits.len() < 4 {
                            return None;
                        }
                        out.push(char::from_u32(u32::from_str_radix(&digits, 16).ok()?)?);
                    }
                    _ => return None,
                }
            }
            '\0'..='\u{1f}' | '\u{fffe}' | '\u{ffff}' => return None,
            _ => out.push(c),
        }
    }
    None
}
