//! Patterns of LIKE, read into Glushkov's positions: each symbol is a bit, and a set of live symbols a word.

const LONGEST: usize = 256;
const SYMBOLS: usize = 60;
const DEPTH: usize = 8;

/// Characters that a symbol has in its list, or that are left out of it where it is negated.
#[derive(Clone, Copy)]
pub struct Span {
    pub symbol: u64,
    pub low: u32,
    pub high: u32,
}

pub struct Pattern {
    pub is_nullable: bool,
    pub first: u64,
    pub last: u64,
    /// Which symbols may come behind each.
    pub follow: Vec<u64>,
    /// `.` and sets with `^`: any character but those of their spans.
    pub negated: u64,
    pub spans: Vec<Span>,
}

#[derive(Clone, Copy)]
struct Part {
    is_nullable: bool,
    first: u64,
    last: u64,
}

impl Pattern {
    pub fn read(text: &[char]) -> Option<Pattern> {
        if text.len() > LONGEST {
            return None;
        }
        let mut reader = Reader { text, at: 0, follow: Vec::with_capacity(SYMBOLS), negated: 0, spans: Vec::new() };
        let Part { is_nullable, first, last } = reader.alternatives(0)?;
        let Reader { at, follow, negated, spans, .. } = reader;
        (at == text.len()).then_some(Pattern { is_nullable, first, last, follow, negated, spans })
    }
}

struct Reader<'a> {
    text: &'a [char],
    at: usize,
    follow: Vec<u64>,
    negated: u64,
    spans: Vec<Span>,
}

impl Reader<'_> {
    fn peek(&self) -> Option<char> {
        self.text.get(self.at).copied()
    }

    fn take(&mut self) -> Option<char> {
        let found = self.peek()?;
        self.at += 1;
        Some(found)
    }

    fn eat(&mut self, c: char) -> bool {
        let found = self.peek() == Some(c);
        self.at += usize::from(found);
        found
    }

    fn alternatives(&mut self, depth: usize) -> Option<Part> {
        let mut all = self.sequence(depth)?;
        while self.eat('|') {
            let part = self.sequence(depth)?;
            let is_nullable = all.is_nullable | part.is_nullable;
            all = Part { is_nullable, first: all.first | part.first, last: all.last | part.last };
        }
        Some(all)
    }

    fn sequence(&mut self, depth: usize) -> Option<Part> {
        let mut all = Part { is_nullable: true, first: 0, last: 0 };
        while self.peek().is_some_and(|c| c != '|' && c != ')') {
            let part = self.repeated(depth)?;
            self.join(all.last, part.first);
            all = Part {
                is_nullable: all.is_nullable & part.is_nullable,
                first: if all.is_nullable { all.first | part.first } else { all.first },
                last: if part.is_nullable { all.last | part.last } else { part.last },
            };
        }
        Some(all)
    }

    /// Each symbol of one set may be followed by each of the other.
    fn join(&mut self, mut from: u64, to: u64) {
        while from != 0 {
            self.follow[from.trailing_zeros() as usize] |= to;
            from &= from - 1;
        }
    }

    fn repeated(&mut self, depth: usize) -> Option<Part> {
        let mut part = self.item(depth)?;
        let (repeats, may_lack) = match self.peek() {
            Some('*') => (true, true),
            Some('+') => (true, false),
            Some('?') => (false, true),
            _ => return Some(part),
        };
        self.at += 1;
        if repeats {
            self.join(part.last, part.first);
        }
        part.is_nullable |= may_lack;
        Some(part)
    }

    fn item(&mut self, depth: usize) -> Option<Part> {
        if self.eat('(') {
            let part = if depth < DEPTH { self.alternatives(depth + 1)? } else { return None };
            return self.eat(')').then_some(part);
        }
        if self.follow.len() == SYMBOLS {
            return None;
        }
        let symbol = 1 << self.follow.len();
        match self.take()? {
            '.' => self.negated |= symbol,
            '[' => self.set(symbol)?,
            '\\' => {
                let c = self.take()?;
                self.span(symbol, c, c);
            }
            ')' | ']' | '|' | '*' | '+' | '?' => return None,
            c => self.span(symbol, c, c),
        }
        self.follow.push(0);
        Some(Part { is_nullable: false, first: symbol, last: symbol })
    }

    fn span(&mut self, symbol: u64, low: char, high: char) {
        self.spans.push(Span { symbol, low: u32::from(low), high: u32::from(high) });
    }

    fn set(&mut self, symbol: u64) -> Option<()> {
        if self.eat('^') {
            self.negated |= symbol;
        }
        loop {
            let low = self.member()?;
            let high = if self.eat('-') { self.member()? } else { low };
            if high < low {
                return None;
            }
            self.span(symbol, low, high);
            if self.eat(']') {
                return Some(());
            }
        }
    }

    fn member(&mut self) -> Option<char> {
        match self.take()? {
            '\\' => self.take(),
            '-' | ']' => None,
            c => Some(c),
        }
    }
}
