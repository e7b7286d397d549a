//! The first grammar group, by recursive descent over the tokens.

use crate::record::Fault;
use crate::token::{tokens, Kind, Operator, Token, Word};

pub const LENGTH_OF_QUERY: usize = 4_096;
pub const COMPARISONS: usize = 64;
pub const ELEMENTS: usize = 32;

#[derive(Clone, Copy, Debug, PartialEq, Eq)]
pub enum Quantifier {
    Single,
    Any,
    Every,
}

#[derive(Clone, Copy, Debug, PartialEq, Eq)]
pub enum Join {
    Last,
    And,
    Or,
    GroupAnd,
    GroupOr,
}

#[derive(Clone, Debug, PartialEq, Eq)]
pub struct Path {
    /// Where each name starts and ends.
    pub names: Vec<(usize, usize)>,
    /// Where the number of an index starts.
    pub index: Option<usize>,
}

#[derive(Clone, Copy, Debug, PartialEq, Eq)]
pub enum Operation {
    Compare(Operator),
    Like,
    NotLike,
}

#[derive(Clone, Debug, PartialEq, Eq)]
pub enum Right {
    Literal(Token),
    Elements(Vec<Token>),
    Property(Path),
    Pattern(Token),
}

#[derive(Clone, Debug, PartialEq, Eq)]
pub struct Comparison {
    pub start: usize,
    pub negated: bool,
    pub quantifier: Quantifier,
    pub left: Path,
    pub operation: Operation,
    pub right: Right,
}

pub type Query = Vec<(Comparison, Join)>;

#[derive(Clone, Copy, Debug, PartialEq, Eq, PartialOrd, Ord)]
pub enum Side {
    Left,
    Right,
}

impl Comparison {
    /// The paths with their sides, the left one first.
    pub fn paths(&self) -> Vec<(Side, &Path)> {
        let left = (Side::Left, &self.left);
        match &self.right {
            Right::Property(path) => vec![left, (Side::Right, path)],
            Right::Literal(_) | Right::Elements(_) | Right::Pattern(_) => vec![left],
        }
    }
}

struct Parser<'a> {
    query: &'a [u8],
    tokens: Vec<Token>,
    at: usize,
}

fn wrong<T>(token: Token) -> Result<T, Fault> {
    Err((11, token.start as u64))
}

impl Parser<'_> {
    fn token(&self) -> Token {
        self.tokens[self.at]
    }

    fn take(&mut self) -> Token {
        let token = self.token();
        self.at += 1;
        token
    }

    fn eat(&mut self, kind: Kind) -> bool {
        let found = self.token().kind == kind;
        self.at += usize::from(found);
        found
    }

    fn expect(&mut self, kind: Kind) -> Result<Token, Fault> {
        match self.token().kind == kind {
            true => Ok(self.take()),
            false => wrong(self.token()),
        }
    }

    fn query(&mut self) -> Result<Query, Fault> {
        let grouped = self.eat(Kind::Symbol(b'('));
        let mut out = Query::new();
        loop {
            let comparison = self.limited(out.len())?;
            let join = self.join(grouped)?;
            out.push((comparison, join));
            if join == Join::Last {
                return Ok(out);
            }
        }
    }

    /// A comparison after so many others: one too many is 12 where one could start, else 11.
    fn limited(&mut self, before: usize) -> Result<Comparison, Fault> {
        let opens = match self.token().kind {
            Kind::Name => true,
            Kind::Reserved(word) => matches!(word, Word::Not | Word::Any | Word::Every),
            _ => false,
        };
        match before == COMPARISONS && opens {
            true => Err((12, self.token().start as u64)),
            false => self.comparison(),
        }
    }

    fn join(&mut self, grouped: bool) -> Result<Join, Fault> {
        if self.eat(Kind::Reserved(Word::And)) {
            return Ok(Join::And);
        }
        if self.eat(Kind::Reserved(Word::Or)) {
            return Ok(Join::Or);
        }
        if !grouped {
            return self.expect(Kind::End).map(|_| Join::Last);
        }
        self.expect(Kind::Symbol(b')'))?;
        let join = if self.eat(Kind::Reserved(Word::And)) {
            Join::GroupAnd
        } else if self.eat(Kind::Reserved(Word::Or)) {
            Join::GroupOr
        } else {
            return self.expect(Kind::End).map(|_| Join::Last);
        };
        self.expect(Kind::Symbol(b'('))?;
        Ok(join)
    }

    fn comparison(&mut self) -> Result<Comparison, Fault> {
        let start = self.token().start;
        let negated = self.eat(Kind::Reserved(Word::Not));
        let quantifier = if self.eat(Kind::Reserved(Word::Any)) {
            Quantifier::Any
        } else if self.eat(Kind::Reserved(Word::Every)) {
            Quantifier::Every
        } else if negated {
            return wrong(self.token());
        } else {
            Quantifier::Single
        };
        let single = quantifier == Quantifier::Single;
        let left = self.path(single)?;
        let operation = self.operation(single)?;
        let plain = single && left.index.is_none();
        let right = match operation {
            Operation::Compare(operator) => self.operand(plain, operator)?,
            Operation::Like | Operation::NotLike => Right::Pattern(self.expect(Kind::Text)?),
        };
        Ok(Comparison { start, negated, quantifier, left, operation, right })
    }

    fn path(&mut self, indexable: bool) -> Result<Path, Fault> {
        let first = self.expect(Kind::Name)?;
        let mut names = vec![(first.start, first.end)];
        while self.eat(Kind::Symbol(b'.')) {
            match self.token().kind {
                Kind::Name | Kind::Reserved(_) => {
                    let name = self.take();
                    names.push((name.start, name.end));
                }
                _ => return wrong(self.token()),
            }
        }
        let mut index = None;
        if indexable && self.eat(Kind::Symbol(b'[')) {
            index = Some(self.unsigned()?.start);
            self.expect(Kind::Symbol(b']'))?;
        }
        Ok(Path { names, index })
    }

    fn unsigned(&mut self) -> Result<Token, Fault> {
        let signed = matches!(self.query.get(self.token().start), Some(b'+' | b'-'));
        match signed {
            true => wrong(self.token()),
            false => self.expect(Kind::Decimal),
        }
    }

    fn operation(&mut self, like: bool) -> Result<Operation, Fault> {
        if let Kind::Compare(operator) = self.token().kind {
            self.at += 1;
            return Ok(Operation::Compare(operator));
        }
        if like && self.eat(Kind::Reserved(Word::Like)) {
            return Ok(Operation::Like);
        }
        if like && self.eat(Kind::Reserved(Word::Not)) {
            self.expect(Kind::Reserved(Word::Like))?;
            return Ok(Operation::NotLike);
        }
        wrong(self.token())
    }

    fn operand(&mut self, plain: bool, operator: Operator) -> Result<Right, Fault> {
        if self.token().kind.is_literal() {
            return Ok(Right::Literal(self.take()));
        }
        let equality = matches!(operator, Operator::Equal | Operator::Unequal);
        if plain && equality && self.token().kind == Kind::Symbol(b'{') {
            return self.elements();
        }
        self.path(!plain).map(Right::Property)
    }

    fn elements(&mut self) -> Result<Right, Fault> {
        self.take();
        let mut elements = Vec::new();
        if self.token().kind != Kind::Symbol(b'}') {
            loop {
                let element = self.token();
                if !element.kind.is_literal() {
                    return wrong(element);
                }
                if elements.len() == ELEMENTS {
                    return Err((12, element.start as u64));
                }
                elements.push(self.take());
                if !self.eat(Kind::Symbol(b',')) {
                    break;
                }
            }
        }
        self.expect(Kind::Symbol(b'}'))?;
        Ok(Right::Elements(elements))
    }
}

/// The comparisons of a query, or its refusal: 1, 10, 11 or 12.
pub fn parse(query: &[u8]) -> Result<Query, Fault> {
    if query.len() > LENGTH_OF_QUERY {
        return Err((1, 0));
    }
    if let Err(e) = std::str::from_utf8(query) {
        return Err((10, e.valid_up_to() as u64));
    }
    Parser { query, tokens: tokens(query), at: 0 }.query()
}
