//! LIKE patterns: a recursive-descent parser, and a matcher that backtracks over the syntax tree and remembers, for each
//! node and start, where it can end.

use std::collections::{BTreeSet, HashMap};

enum Node {
    Any,
    One(u32),
    Set { negated: bool, ranges: Vec<(u32, u32)> },
    Sequence(Vec<usize>),
    Alternatives(Vec<usize>),
    Repeat { inner: usize, least: usize, more: bool },
}

pub struct Pattern {
    nodes: Vec<Node>,
    root: usize,
}

struct Parser<'a> {
    text: &'a [u32],
    at: usize,
    symbols: usize,
    nodes: Vec<Node>,
}

const fn c(x: char) -> u32 {
    x as u32
}

impl Parser<'_> {
    fn peek(&self) -> Option<u32> {
        self.text.get(self.at).copied()
    }

    fn take(&mut self) -> Option<u32> {
        let x = self.peek()?;
        self.at += 1;
        Some(x)
    }

    fn eat(&mut self, x: char) -> bool {
        let found = self.peek() == Some(c(x));
        self.at += usize::from(found);
        found
    }

    fn add(&mut self, node: Node) -> usize {
        self.nodes.push(node);
        self.nodes.len() - 1
    }

    fn alternatives(&mut self, depth: usize) -> Option<usize> {
        let mut parts = vec![self.sequence(depth)?];
        while self.eat('|') {
            parts.push(self.sequence(depth)?);
        }
        Some(self.add(Node::Alternatives(parts)))
    }

    fn sequence(&mut self, depth: usize) -> Option<usize> {
        let mut items = Vec::new();
        while self.peek().is_some_and(|x| x != c('|') && x != c(')')) {
            items.push(self.repeated(depth)?);
        }
        Some(self.add(Node::Sequence(items)))
    }

    fn repeated(&mut self, depth: usize) -> Option<usize> {
        let inner = self.item(depth)?;
        let (least, more) = match self.peek() {
            Some(x) if x == c('*') => (0, true),
            Some(x) if x == c('+') => (1, true),
            Some(x) if x == c('?') => (0, false),
            _ => return Some(inner),
        };
        self.at += 1;
        Some(self.add(Node::Repeat { inner, least, more }))
    }

    fn item(&mut self, depth: usize) -> Option<usize> {
        let x = self.take()?;
        if x == c('(') {
            if depth == 8 {
                return None;
            }
            let inner = self.alternatives(depth + 1)?;
            return self.eat(')').then_some(inner);
        }
        let node = if x == c('.') {
            Node::Any
        } else if x == c('\\') {
            Node::One(self.take()?)
        } else if x == c('[') {
            self.set()?
        } else if ")]|*+?".chars().any(|special| x == c(special)) {
            return None;
        } else {
            Node::One(x)
        };
        self.symbols += 1;
        (self.symbols <= 60).then(|| self.add(node))
    }

    fn set(&mut self) -> Option<Node> {
        let negated = self.eat('^');
        let mut ranges = Vec::new();
        while !self.eat(']') {
            let low = self.member()?;
            let high = if self.eat('-') { self.member()? } else { low };
            if low > high {
                return None;
            }
            ranges.push((low, high));
        }
        (!ranges.is_empty()).then_some(Node::Set { negated, ranges })
    }

    fn member(&mut self) -> Option<u32> {
        let x = self.take()?;
        match x {
            _ if x == c('\\') => self.take(),
            _ if x == c('-') || x == c(']') => None,
            _ => Some(x),
        }
    }
}

impl Pattern {
    pub fn parse(text: &[u32]) -> Option<Pattern> {
        if text.len() > 256 {
            return None;
        }
        let mut parser = Parser { text, at: 0, symbols: 0, nodes: Vec::new() };
        let root = parser.alternatives(0)?;
        (parser.at == text.len()).then_some(Pattern { nodes: parser.nodes, root })
    }

    /// Whether the whole text matches.
    pub fn matches(&self, text: &[u32]) -> bool {
        self.ends(self.root, text, 0, &mut HashMap::new()).contains(&text.len())
    }

    fn ends(
        &self,
        node: usize,
        text: &[u32],
        at: usize,
        known: &mut HashMap<(usize, usize), BTreeSet<usize>>,
    ) -> BTreeSet<usize> {
        if let Some(found) = known.get(&(node, at)) {
            return found.clone();
        }
        let found = match &self.nodes[node] {
            Node::Any => one(text.get(at).is_some(), at),
            Node::One(x) => one(text.get(at) == Some(x), at),
            Node::Set { negated, ranges } => {
                let inside = |x: &u32| ranges.iter().any(|(low, high)| low <= x && x <= high);
                one(text.get(at).is_some_and(|x| inside(x) != *negated), at)
            }
            Node::Alternatives(parts) => parts.iter().flat_map(|&p| self.ends(p, text, at, known)).collect(),
            Node::Sequence(items) => items.iter().fold(BTreeSet::from([at]), |starts, &item| {
                starts.iter().flat_map(|&s| self.ends(item, text, s, known)).collect()
            }),
            Node::Repeat { inner, least, more } => self.repeats(*inner, *least, *more, text, at, known),
        };
        known.insert((node, at), found.clone());
        found
    }

    fn repeats(
        &self,
        inner: usize,
        least: usize,
        more: bool,
        text: &[u32],
        at: usize,
        known: &mut HashMap<(usize, usize), BTreeSet<usize>>,
    ) -> BTreeSet<usize> {
        let mut found = self.ends(inner, text, at, known);
        if more {
            let mut open: Vec<usize> = found.iter().copied().collect();
            while let Some(start) = open.pop() {
                for end in self.ends(inner, text, start, known) {
                    if found.insert(end) {
                        open.push(end);
                    }
                }
            }
        }
        if least == 0 {
            found.insert(at);
        }
        found
    }
}

fn one(holds: bool, at: usize) -> BTreeSet<usize> {
    holds.then_some(at + 1).into_iter().collect()
}
