//! The grammar in one pass: refusals 1 and 10 to 12, and the comparisons of a query with what joins them.

use crate::refusal::{refuse, Refusal};
use crate::text::coding;
use crate::token::{self, Kind, Operator, Token};
use std::ops::Range;

const LONGEST: usize = 4_096;
const COMPARISONS: usize = 64;
const ELEMENTS: usize = 32;

#[derive(Clone, Copy)]
pub struct Path {
    pub first: (usize, usize),
    pub second: (usize, usize),
    pub names: usize,
    /// Where the digits of an index start.
    pub index: Option<usize>,
}

#[derive(Clone, Copy, PartialEq, Eq)]
pub enum Quantifier {
    Single,
    Any,
    Every,
}

#[derive(Clone, Copy, PartialEq, Eq)]
pub enum Operation {
    Compare(Operator),
    Like,
    NotLike,
}

pub enum Right {
    Literal,
    Elements,
    Property(Path),
    Pattern,
}

#[derive(Clone, Copy, PartialEq, Eq)]
pub enum Join {
    Last,
    And,
    Or,
    GroupAnd,
    GroupOr,
}

pub struct Comparison {
    pub start: usize,
    pub negated: bool,
    pub quantifier: Quantifier,
    pub operation: Operation,
    pub left: Path,
    pub right: Right,
    /// Which of the query's literals stand on the right, the pattern of a LIKE among them.
    pub literals: Range<usize>,
    pub join: Join,
}

pub struct Query {
    pub comparisons: Vec<Comparison>,
    pub literals: Vec<Token>,
}

pub fn parse(query: &[u8]) -> Result<Query, Refusal> {
    if query.len() > LONGEST {
        return refuse(1, 0);
    }
    if coding(query).is_none() {
        return refuse(10, std::str::from_utf8(query).unwrap_err().valid_up_to());
    }
    let mut parser = Parser { query, token: token::at(query, 0), literals: Vec::with_capacity(8) };
    let comparisons = parser.comparisons()?;
    Ok(Query { comparisons, literals: parser.literals })
}

struct Parser<'a> {
    query: &'a [u8],
    token: Token,
    literals: Vec<Token>,
}

impl Parser<'_> {
    #[inline]
    fn take(&mut self) -> Token {
        let token = self.token;
        self.token = token::after(self.query, token);
        token
    }

    #[inline]
    fn eat(&mut self, kind: Kind) -> bool {
        let found = self.token.kind == kind;
        if found {
            self.take();
        }
        found
    }

    fn wrong<T>(&self) -> Result<T, Refusal> {
        refuse(11, self.token.start())
    }

    fn expect(&mut self, kind: Kind) -> Result<(), Refusal> {
        if self.eat(kind) {
            Ok(())
        } else {
            self.wrong()
        }
    }

    fn comparisons(&mut self) -> Result<Vec<Comparison>, Refusal> {
        let grouped = self.eat(Kind::OpenGroup);
        let mut comparisons = Vec::with_capacity(8);
        loop {
            if comparisons.len() == COMPARISONS {
                let starts = matches!(self.token.kind, Kind::Name | Kind::Not | Kind::Any | Kind::Every);
                return refuse(if starts { 12 } else { 11 }, self.token.start());
            }
            let mut comparison = self.comparison()?;
            comparison.join = self.join(grouped)?;
            let last = comparison.join == Join::Last;
            comparisons.push(comparison);
            if last {
                return Ok(comparisons);
            }
        }
    }

    fn join(&mut self, grouped: bool) -> Result<Join, Refusal> {
        if self.eat(Kind::And) {
            return Ok(Join::And);
        }
        if self.eat(Kind::Or) {
            return Ok(Join::Or);
        }
        if grouped {
            self.expect(Kind::CloseGroup)?;
            for (word, join) in [(Kind::And, Join::GroupAnd), (Kind::Or, Join::GroupOr)] {
                if self.eat(word) {
                    self.expect(Kind::OpenGroup)?;
                    return Ok(join);
                }
            }
        }
        if self.token.kind == Kind::End {
            Ok(Join::Last)
        } else {
            self.wrong()
        }
    }

    fn comparison(&mut self) -> Result<Comparison, Refusal> {
        let start = self.token.start();
        let negated = self.eat(Kind::Not);
        let quantifier = match self.token.kind {
            Kind::Any => Quantifier::Any,
            Kind::Every => Quantifier::Every,
            _ if negated => return self.wrong(),
            _ => Quantifier::Single,
        };
        let single = quantifier == Quantifier::Single;
        if !single {
            self.take();
        }
        let left = self.path(single)?;
        let first = self.literals.len();
        let (operation, right) = match (self.token.kind.operator(), self.token.kind) {
            (Some(operator), _) => {
                self.take();
                let whole = single && left.index.is_none();
                (Operation::Compare(operator), self.right(operator, whole)?)
            }
            (None, Kind::Like | Kind::Not) if single => (self.like()?, Right::Pattern),
            _ => return self.wrong(),
        };
        let literals = first..self.literals.len();
        Ok(Comparison { start, negated, quantifier, operation, left, right, literals, join: Join::Last })
    }

    fn like(&mut self) -> Result<Operation, Refusal> {
        let negated = self.eat(Kind::Not);
        self.expect(Kind::Like)?;
        if self.token.kind != Kind::Text {
            return self.wrong();
        }
        self.literal();
        Ok(if negated { Operation::NotLike } else { Operation::Like })
    }

    #[inline]
    fn literal(&mut self) {
        let token = self.take();
        self.literals.push(token);
    }

    /// An array literal stands beside a whole property under `=` and `<>` alone, and an index beside anything but a
    /// whole property.
    fn right(&mut self, operator: Operator, beside_whole: bool) -> Result<Right, Refusal> {
        if self.token.kind.is_literal() {
            self.literal();
            return Ok(Right::Literal);
        }
        let equality = matches!(operator, Operator::Equal | Operator::Unequal);
        if beside_whole && equality && self.eat(Kind::OpenArray) {
            self.elements()?;
            return Ok(Right::Elements);
        }
        self.path(!beside_whole).map(Right::Property)
    }

    fn elements(&mut self) -> Result<(), Refusal> {
        if self.eat(Kind::CloseArray) {
            return Ok(());
        }
        let most = self.literals.len() + ELEMENTS;
        loop {
            if !self.token.kind.is_literal() {
                return self.wrong();
            }
            if self.literals.len() == most {
                return refuse(12, self.token.start());
            }
            self.literal();
            if !self.eat(Kind::Comma) {
                return self.expect(Kind::CloseArray);
            }
        }
    }

    fn path(&mut self, indexable: bool) -> Result<Path, Refusal> {
        if self.token.kind != Kind::Name {
            return self.wrong();
        }
        let first = self.take();
        let mut path = Path { first: (first.start(), first.end()), second: (0, 0), names: 1, index: None };
        while self.eat(Kind::Dot) {
            if !self.token.kind.is_name() {
                return self.wrong();
            }
            let name = self.take();
            if path.names == 1 {
                path.second = (name.start(), name.end());
            }
            path.names += 1;
        }
        if indexable && self.eat(Kind::OpenIndex) {
            if self.token.kind != Kind::Decimal || !self.query[self.token.start()].is_ascii_digit() {
                return self.wrong();
            }
            path.index = Some(self.take().start());
            self.expect(Kind::CloseIndex)?;
        }
        Ok(path)
    }
}
