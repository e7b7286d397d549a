//! What one comparison of a checked query makes of an instance, and its steps (01, "Meaning" and "Steps").

use crate::check::{find, is_whole_array, literals, pattern};
use crate::instance::Slot;
use crate::literal;
use crate::record::Table;
use crate::syntax::{Comparison, Operation, Path, Quantifier, Right};
use crate::token::{Operator, Token};
use crate::value::{equal, holds, Row, Value};

pub struct Meaning<'a> {
    pub query: &'a [u8],
    pub table: &'a Table,
    pub slots: &'a [Slot],
}

/// Whether a comparison holds, and its steps.
pub type Judgement = (bool, u64);

impl Meaning<'_> {
    pub fn judge(&self, c: &Comparison) -> Judgement {
        match (c.operation, &c.right) {
            (Operation::Like, Right::Pattern(token)) => self.like(c, token, false),
            (Operation::NotLike, Right::Pattern(token)) => self.like(c, token, true),
            (Operation::Compare(operator), _) if c.quantifier != Quantifier::Single => self.quantified(c, operator),
            (Operation::Compare(operator), _) if is_whole_array(c, self.kind(&c.left)) => self.arrays(c, operator),
            (Operation::Compare(operator), _) => (holds(&self.scalar(&c.left), operator, &self.right(c)), 1),
            (operation, right) => panic!("{operation:?} doesn't stand before {right:?}"),
        }
    }

    /// How much a comparison reads for the bound: its whole left array, or the whole text of a LIKE.
    pub fn reads(&self, c: &Comparison) -> u64 {
        if !matches!(c.operation, Operation::Compare(_)) {
            return match self.scalar(&c.left) {
                Value::Text(text) => text.chars().count() as u64,
                _ => 0,
            };
        }
        if c.quantifier != Quantifier::Single || is_whole_array(c, self.kind(&c.left)) {
            return self.array(&c.left).map_or(0, |elements| elements.len() as u64);
        }
        0
    }

    fn kind(&self, path: &Path) -> u16 {
        find(self.query, self.table, path).unwrap().1
    }

    fn slot(&self, path: &Path) -> &Slot {
        &self.slots[find(self.query, self.table, path).unwrap().0]
    }

    /// The scalar at a path. An index past the end, or into NULL, reads NULL.
    fn scalar(&self, path: &Path) -> Value {
        match (self.slot(path), path.index) {
            (Slot::Scalar(value), None) => value.clone(),
            (Slot::Array(elements), Some(start)) => {
                let index = literal::index(self.query, start).unwrap();
                elements.as_ref().and_then(|e| e.get(index)).cloned().unwrap_or(Value::Null)
            }
            (slot, index) => panic!("{slot:?} is no scalar with index {index:?}"),
        }
    }

    fn array(&self, path: &Path) -> Option<&[Value]> {
        match self.slot(path) {
            Slot::Array(elements) => elements.as_deref(),
            Slot::Scalar(value) => panic!("{value:?} is no array"),
        }
    }

    fn literal(&self, token: &Token, c: &Comparison) -> Value {
        literal::value(self.query, token, Row::of(self.kind(&c.left))).unwrap()
    }

    /// The scalar on the right side.
    fn right(&self, c: &Comparison) -> Value {
        match &c.right {
            Right::Literal(token) => self.literal(token, c),
            Right::Property(path) => self.scalar(path),
            other => panic!("{other:?} is no scalar"),
        }
    }

    /// The array on the right side.
    fn right_array(&self, c: &Comparison) -> Option<Vec<Value>> {
        match &c.right {
            Right::Property(path) => self.array(path).map(<[Value]>::to_vec),
            right => Some(literals(right).iter().map(|token| self.literal(token, c)).collect()),
        }
    }

    /// The values that a comparison would set beside each other if no search ended early.
    pub fn pairs(&self, c: &Comparison) -> Vec<(Value, Value)> {
        if !matches!(c.operation, Operation::Compare(_)) {
            return Vec::new();
        }
        if is_whole_array(c, self.kind(&c.left)) {
            let left = self.array(&c.left).unwrap_or_default().iter().cloned();
            return left.zip(self.right_array(c).unwrap_or_default()).collect();
        }
        let left = match c.quantifier {
            Quantifier::Single => vec![self.scalar(&c.left)],
            Quantifier::Any | Quantifier::Every => self.array(&c.left).unwrap_or_default().to_vec(),
        };
        let right = self.right(c);
        left.into_iter().map(|value| (value, right.clone())).collect()
    }

    /// LIKE on NULL is false; NOT reverses it. Every character counts, also where the match is lost early.
    fn like(&self, c: &Comparison, token: &Token, negated: bool) -> Judgement {
        let Value::Text(text) = self.scalar(&c.left) else { return (negated, 1) };
        let characters: Vec<u32> = text.chars().map(u32::from).collect();
        let matched = pattern(self.query, token).unwrap().matches(&characters);
        (matched != negated, 1 + characters.len() as u64)
    }

    /// ANY ends at the first element that holds, EVERY at the first that doesn't; both are false on NULL.
    fn quantified(&self, c: &Comparison, operator: Operator) -> Judgement {
        let Some(elements) = self.array(&c.left) else { return (c.negated, 1) };
        let right = self.right(c);
        let any = c.quantifier == Quantifier::Any;
        let decider = elements.iter().position(|element| holds(element, operator, &right) == any);
        let looked_at = decider.map_or(elements.len(), |at| at + 1);
        let verdict = decider.is_some() == any;
        (verdict != c.negated, 1 + looked_at as u64)
    }

    /// Arrays of equal size count one for each pair up to and with the first unequal one.
    fn arrays(&self, c: &Comparison, operator: Operator) -> Judgement {
        let right = self.right_array(c);
        let (same, pairs) = match (self.array(&c.left), right.as_deref()) {
            (None, None) => (true, 0),
            (Some(a), Some(b)) if a.len() == b.len() => {
                let unequal = a.iter().zip(b).position(|(x, y)| !equal(x, y));
                (unequal.is_none(), unequal.map_or(a.len(), |at| at + 1))
            }
            _ => (false, 0),
        };
        (same == (operator == Operator::Equal), 1 + pairs as u64)
    }
}
