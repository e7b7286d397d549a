//! A table and a query as a program, and its run on an instance.

use crate::automaton::Automaton;
use crate::check::Checker;
use crate::joins::{ways, Way, EXCLUDED, INCLUDED};
use crate::literal::Literal;
use crate::note::Note;
use crate::operation::{Operation, Reading};
use crate::refusal::{refuse, Refusal};
use crate::syntax::{self, Comparison, Join};
use crate::table::{Table, PROPERTIES};
use crate::value::{orders_of, Order};
use crate::walk::{walk, Expected, Notes};

const LONGEST_INSTANCE: usize = 65_535;

#[derive(Clone, Copy, Debug, PartialEq, Eq)]
pub struct Answer {
    pub included: bool,
    pub steps: u64,
}

/// A query that the check accepts, for the instances of a table's class.
pub struct Program {
    pub(crate) expected: Vec<Expected>,
    operations: Vec<(Operation, Way)>,
    elements: Vec<Literal>,
    pool: Vec<u8>,
    automata: Vec<Automaton>,
}

fn orders(c: &Comparison) -> Order {
    match c.operation {
        syntax::Operation::Compare(operator) => orders_of(operator),
        _ => 0,
    }
}

impl Program {
    pub fn new(query: &[u8], table: &[u8]) -> Result<Program, Refusal> {
        let table = Table::read(table)?;
        let parsed = syntax::parse(query)?;
        let mut checker = Checker::new(query, &table, &parsed.literals);
        let joins: Vec<Join> = parsed.comparisons.iter().map(|c| c.join).collect();
        let mut operations = Vec::with_capacity(joins.len());
        for (c, way) in parsed.comparisons.iter().zip(ways(&joins)) {
            let is_negated = c.negated || c.operation == syntax::Operation::NotLike;
            operations.push((Operation { orders: orders(c), is_negated, test: checker.test(c)? }, way));
        }
        let expected = table.kinds.iter().map(|&kind| Expected::new(kind)).collect();
        let (pool, elements, automata) = checker.into_values();
        Ok(Program { expected, operations, elements, pool, automata })
    }

    pub fn evaluate(&mut self, instance: &[u8]) -> Result<Answer, Refusal> {
        if instance.len() > LONGEST_INSTANCE {
            return refuse(30, 0);
        }
        let mut notes = [Note::NULL; PROPERTIES];
        match walk(&self.expected, instance, &mut notes) {
            Err(place) => refuse(31, place),
            Ok(()) => Ok(self.run(instance, &notes)),
        }
    }

    /// One verdict of each comparison leads to the next one, the other out of its part of the query.
    #[inline(always)]
    pub(crate) fn run(&mut self, instance: &[u8], notes: &Notes) -> Answer {
        let reading = Reading { instance, notes, pool: &self.pool, elements: &self.elements };
        let (mut steps, mut number) = (0, 0);
        while let Some((operation, way)) = self.operations.get(number) {
            let (holds, added) = operation.judge(&reading, &mut self.automata);
            steps += added;
            number = if holds == way.goes_on {
                number + 1
            } else if way.otherwise == INCLUDED || way.otherwise == EXCLUDED {
                return Answer { included: way.otherwise == INCLUDED, steps };
            } else {
                usize::from(way.otherwise)
            };
        }
        Answer { included: false, steps }
    }
}
