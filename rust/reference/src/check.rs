//! The check of a query: the one refusal that comes first, in the order of 01's list of causes.

use crate::kind::is_array;
use crate::literal::{self, NO_DATETIME, OUT_OF_RANGE};
use crate::pattern::Pattern;
use crate::record::Table;
use crate::refusal::{require, Refusal};
use crate::syntax::{self, Comparison, Operation, Path, Quantifier, Query, Right};
use crate::token::{string, Kind, Operator, Token, Word};
use crate::value::Row;

pub fn check(query: &[u8], table: &[u8]) -> Result<(), Refusal> {
    read(query, table).map(|_| ())
}

/// The table and the comparisons of a query that the check accepts.
pub fn read(query: &[u8], table: &[u8]) -> Result<(Table, Query), Refusal> {
    let table = Table::read(table)?;
    let comparisons = syntax::parse(query)?;
    let checker = Checker { query, table: &table };
    for (comparison, _) in &comparisons {
        checker.comparison(comparison)?;
    }
    Ok((table, comparisons))
}

/// The property that a path names: `A`, or `Class.A` with the table's class.
pub fn find(query: &[u8], table: &Table, path: &Path) -> Option<(usize, u16)> {
    let name = |(start, end): (usize, usize)| &query[start..end];
    match path.names[..] {
        [property] => table.find(name(property)),
        [class, property] if table.class.eq_ignore_ascii_case(name(class)) => table.find(name(property)),
        _ => None,
    }
}

/// The scalar literals on a right side, leftmost first.
pub fn literals(right: &Right) -> &[Token] {
    match right {
        Right::Literal(token) => std::slice::from_ref(token),
        Right::Elements(elements) => elements,
        Right::Property(_) | Right::Pattern(_) => &[],
    }
}

/// The characters of a pattern literal, after the string's own unescaping.
pub fn pattern(query: &[u8], token: &Token) -> Option<Pattern> {
    let (text, _) = string(&query[token.start..token.end])?;
    let characters: Vec<u32> = text.chars().map(u32::from).collect();
    Pattern::parse(&characters)
}

struct Checker<'a> {
    query: &'a [u8],
    table: &'a Table,
}

impl Checker<'_> {
    /// 20, 22, 21, 23, 24, 25: the order of the causes' rows in 01, not of their numbers.
    fn comparison(&self, c: &Comparison) -> Result<(), Refusal> {
        let left = self.name(&c.left)?;
        let right = match &c.right {
            Right::Property(path) => Some(self.name(path)?),
            _ => None,
        };
        require(has_right_shape(c, left, right), 22, c.start)?;
        require(self.has_right_kind(c, left, right), 21, c.start)?;
        self.indexes(c)?;
        self.values(c, Row::of(left), OUT_OF_RANGE)?;
        if let Right::Pattern(token) = &c.right {
            require(pattern(self.query, token).is_some(), 24, token.start)?;
        }
        self.values(c, Row::of(left), NO_DATETIME)
    }

    /// The kind of the property that a path names.
    fn name(&self, path: &Path) -> Result<u16, Refusal> {
        let found = find(self.query, self.table, path);
        require(found.is_some(), 20, path.names[0].0)?;
        Ok(found.unwrap().1)
    }

    /// 21's rule: the operator is one of the row's, and the right side is of that row.
    fn has_right_kind(&self, c: &Comparison, left: u16, right: Option<u16>) -> bool {
        let row = Row::of(left);
        let Operation::Compare(operator) = c.operation else { return row == Row::Text };
        let equality = matches!(operator, Operator::Equal | Operator::Unequal);
        let null = matches!(&c.right, Right::Literal(token) if token.kind == Kind::Reserved(Word::Null));
        if !equality && (!row.has_order() || null || is_whole_array(c, left)) {
            return false;
        }
        let fits = |token: &Token| literal::fits(self.query, token, row);
        literals(&c.right).iter().all(fits) && right.is_none_or(|kind| Row::of(kind) == row)
    }

    /// The left index stands before everything on the right, so 23 is tried there first.
    fn indexes(&self, c: &Comparison) -> Result<(), Refusal> {
        let right = match &c.right {
            Right::Property(path) => path.index,
            _ => None,
        };
        for start in [c.left.index, right].into_iter().flatten() {
            require(literal::index(self.query, start).is_some(), OUT_OF_RANGE, start)?;
        }
        Ok(())
    }

    /// Whether a literal is refused with this number.
    fn values(&self, c: &Comparison, row: Row, number: u64) -> Result<(), Refusal> {
        for token in literals(&c.right) {
            let wrong = literal::value(self.query, token, row).err();
            require(wrong != Some(number), number, token.start)?;
        }
        Ok(())
    }
}

/// Whether a comparison's left side is an array as a whole, with neither an index nor ANY or EVERY.
pub fn is_whole_array(c: &Comparison, left: u16) -> bool {
    is_array(left) && c.left.index.is_none() && c.quantifier == Quantifier::Single
}

/// 22's rule: an index and ANY or EVERY stand with an array, and a whole array stands beside an array or an array
/// literal.
fn has_right_shape(c: &Comparison, left: u16, right: Option<u16>) -> bool {
    let needs_array = c.left.index.is_some() || c.quantifier != Quantifier::Single;
    if needs_array && !is_array(left) {
        return false;
    }
    let right_is_array = match &c.right {
        Right::Literal(_) | Right::Pattern(_) => false,
        Right::Elements(_) => true,
        Right::Property(path) => match (right.is_some_and(is_array), path.index) {
            (false, Some(_)) => return false,
            (array, index) => array && index.is_none(),
        },
    };
    right_is_array == is_whole_array(c, left)
}
