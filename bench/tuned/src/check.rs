//! Refusals 20 to 25 in the order of 01's list of causes, and what is compared in each comparison.

use crate::automaton::Automaton;
use crate::kind::{is_array, Row, Type};
use crate::literal::{self, Literal};
use crate::operation::{Place, Scalar, Search, Test};
use crate::pattern::Pattern;
use crate::refusal::{refuse, Refusal};
use crate::string::unescape;
use crate::syntax::{self, Comparison, Operation, Path, Quantifier, Right};
use crate::table::Table;
use crate::token::{Kind, Operator, Token};

pub fn check(query: &[u8], table: &[u8]) -> Result<(), Refusal> {
    let table = Table::read(table)?;
    let parsed = syntax::parse(query)?;
    let mut checker = Checker::new(query, &table, &parsed.literals);
    for comparison in &parsed.comparisons {
        checker.test(comparison)?;
    }
    Ok(())
}

pub struct Checker<'a> {
    query: &'a [u8],
    table: &'a Table<'a>,
    tokens: &'a [Token],
    /// The bytes of texts and octets.
    pool: Vec<u8>,
    /// The elements of array literals.
    elements: Vec<Literal>,
    patterns: Vec<Pattern>,
}

impl<'a> Checker<'a> {
    pub fn new(query: &'a [u8], table: &'a Table, tokens: &'a [Token]) -> Checker<'a> {
        Checker { query, table, tokens, pool: Vec::new(), elements: Vec::new(), patterns: Vec::new() }
    }

    /// What the tests refer to.
    pub fn into_values(self) -> (Vec<u8>, Vec<Literal>, Vec<Automaton>) {
        (self.pool, self.elements, self.patterns.into_iter().map(Automaton::new).collect())
    }

    /// The property that a path names: `A`, or `Class.A` with the table's class.
    fn property(&self, path: &Path) -> Result<(u8, u16), Refusal> {
        let name = |(start, end): (usize, usize)| &self.query[start..end];
        let found = match path.names {
            1 => self.table.find(name(path.first)),
            2 if self.table.is_class(name(path.first)) => self.table.find(name(path.second)),
            _ => None,
        };
        match found {
            Some(number) => Ok((number, self.table.kinds[usize::from(number)])),
            None => refuse(20, path.first.0),
        }
    }

    pub fn test(&mut self, c: &Comparison) -> Result<Test, Refusal> {
        let (left, kind) = self.property(&c.left)?;
        let right = match &c.right {
            Right::Property(path) => Some((path, self.property(path)?)),
            _ => None,
        };
        let right_kind = right.map(|(_, (_, kind))| kind);
        if !has_right_shape(c, kind, right_kind) {
            return refuse(22, c.start);
        }
        if !self.has_right_kind(c, kind, right_kind) {
            return refuse(21, c.start);
        }
        let left = self.place(left, kind, &c.left)?;
        match right {
            Some((path, (number, right_kind))) => {
                let right = self.place(number, right_kind, path)?;
                Ok(beside_property(c, left, right, is_whole_array(c, kind)))
            }
            None => self.beside_literals(c, left),
        }
    }

    fn place(&self, property: u8, kind: u16, path: &Path) -> Result<Place, Refusal> {
        let index = match path.index.map(|start| (start, literal::index(self.query, start))) {
            Some((start, None)) => return refuse(23, start),
            Some((_, index)) => index,
            None => None,
        };
        Ok(Place { property, of: Type::of(kind).expect("a table's kind"), index })
    }

    /// The operator is one of the row's, and the right side is of that row.
    fn has_right_kind(&self, c: &Comparison, left: u16, right: Option<u16>) -> bool {
        let row = |kind| Type::of(kind).map(Type::row);
        let Some(own) = row(left) else { return false };
        let Operation::Compare(operator) = c.operation else { return own == Row::Text };
        let tokens = &self.tokens[c.literals.clone()];
        let is_null = matches!(c.right, Right::Literal) && tokens[0].kind == Kind::Null;
        let has_order = own.has_order() && !is_null && !is_whole_array(c, left);
        (has_order || matches!(operator, Operator::Equal | Operator::Unequal))
            && tokens.iter().all(|&token| literal::fits(self.query, token, own))
            && right.is_none_or(|kind| row(kind) == Some(own))
    }

    fn beside_literals(&mut self, c: &Comparison, left: Place) -> Result<Test, Refusal> {
        let (Place { property, of, index }, tokens) = (left, &self.tokens[c.literals.clone()]);
        match c.right {
            Right::Pattern => self.like(left, tokens[0]),
            Right::Elements => {
                let first = self.elements.len();
                for &token in tokens {
                    let element = literal::read(self.query, token, of.row(), &mut self.pool)?;
                    self.elements.push(element);
                }
                Ok(Test::Elements(property, of, first..self.elements.len()))
            }
            _ => {
                let literal = literal::read(self.query, tokens[0], of.row(), &mut self.pool)?;
                if c.quantifier != Quantifier::Single {
                    return Ok(search(c, left, Scalar::Literal(literal)));
                }
                Ok(if index.is_none() { beside_literal(left, literal) } else { Test::Literal(left, literal) })
            }
        }
    }

    fn like(&mut self, left: Place, token: Token) -> Result<Test, Refusal> {
        let start = self.pool.len();
        unescape(self.query, token.start(), token.end(), &mut self.pool);
        let characters: Vec<char> = std::str::from_utf8(&self.pool[start..]).unwrap().chars().collect();
        self.pool.truncate(start);
        let Some(pattern) = Pattern::read(&characters) else { return refuse(24, token.start()) };
        self.patterns.push(pattern);
        Ok(Test::Like(left, self.patterns.len() - 1))
    }
}

fn is_whole_array(c: &Comparison, kind: u16) -> bool {
    is_array(kind) && c.left.index.is_none() && c.quantifier == Quantifier::Single
}

/// An index and ANY or EVERY stand with an array, and a whole array beside an array or an array literal.
fn has_right_shape(c: &Comparison, left: u16, right: Option<u16>) -> bool {
    let needs_array = c.left.index.is_some() || c.quantifier != Quantifier::Single;
    let right_is_array = match &c.right {
        Right::Literal | Right::Pattern => false,
        Right::Elements => true,
        Right::Property(path) if right.is_some_and(is_array) => path.index.is_none(),
        Right::Property(path) if path.index.is_some() => return false,
        Right::Property(_) => false,
    };
    (is_array(left) || !needs_array) && right_is_array == is_whole_array(c, left)
}

fn search(c: &Comparison, left: Place, right: Scalar) -> Test {
    Test::Search(Search { property: left.property, of: left.of, is_any: c.quantifier == Quantifier::Any, right })
}

fn beside_property(c: &Comparison, left: Place, right: Place, arrays: bool) -> Test {
    if c.quantifier != Quantifier::Single {
        return search(c, left, Scalar::Place(right));
    }
    if arrays {
        return Test::Arrays([left.property, right.property], [left.of, right.of]);
    }
    Test::Places(left, right)
}

/// A scalar property beside a literal; the most usual pairs have tests of their own.
fn beside_literal(left: Place, literal: Literal) -> Test {
    match (left.of, literal) {
        (Type::Unsigned, Literal::Integer(n)) if u64::try_from(n).is_ok() => Test::Unsigned(left.property, n as u64),
        (Type::Signed, Literal::Integer(n)) if i64::try_from(n).is_ok() => Test::Signed(left.property, n as i64),
        (Type::Real64, Literal::Real(x)) => Test::Real(left.property, x),
        (Type::Datetime, Literal::Datetime(datetime)) => Test::Datetime(left.property, datetime),
        (Type::Text | Type::Octets | Type::Reference, Literal::Bytes(part, _)) => Test::Bytes(left.property, part),
        (_, literal) => Test::Literal(left, literal),
    }
}
