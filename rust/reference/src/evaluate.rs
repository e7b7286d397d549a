//! The evaluation of a query on an instance, and the bound of its steps.

use crate::check;
use crate::instance::{decode, Slot};
use crate::meaning::{Judgement, Meaning};
use crate::record::Table;
use crate::refusal::Refusal;
use crate::syntax::{Comparison, Join, Query};

#[derive(Clone, Copy, Debug, PartialEq, Eq)]
pub struct Answer {
    pub included: bool,
    pub steps: u64,
}

/// The joins from the loosest to the tightest, with the verdict of a part that lets the rest be skipped: AND binds
/// before OR, in a group and between groups.
const JOINS: [(Join, bool); 4] = [(Join::GroupOr, true), (Join::GroupAnd, false), (Join::Or, true), (Join::And, false)];

/// A query that the check accepts, parsed for a table.
pub struct Prepared<'a> {
    query: &'a [u8],
    table: Table,
    comparisons: Query,
}

impl<'a> Prepared<'a> {
    pub fn new(query: &'a [u8], table: &[u8]) -> Result<Self, Refusal> {
        let (table, comparisons) = check::read(query, table)?;
        Ok(Prepared { query, table, comparisons })
    }

    pub fn evaluate(&self, instance: &[u8]) -> Result<Answer, Refusal> {
        let slots = decode(&self.table, instance)?;
        let (included, steps) = joined(&self.meaning(&slots), &self.comparisons, &JOINS);
        Ok(Answer { included, steps })
    }

    /// What the steps may not exceed: one and what it reads for each comparison, skipped ones included.
    pub fn bound(&self, instance: &[u8]) -> Result<u64, Refusal> {
        let slots = decode(&self.table, instance)?;
        let meaning = self.meaning(&slots);
        Ok(self.comparisons.iter().map(|(comparison, _)| 1 + meaning.reads(comparison)).sum())
    }

    fn meaning<'m>(&'m self, slots: &'m [Slot]) -> Meaning<'m> {
        Meaning { query: self.query, table: &self.table, slots }
    }
}

pub fn evaluate(query: &[u8], table: &[u8], instance: &[u8]) -> Result<Answer, Refusal> {
    Prepared::new(query, table)?.evaluate(instance)
}

pub fn bound(query: &[u8], table: &[u8], instance: &[u8]) -> Result<u64, Refusal> {
    Prepared::new(query, table)?.bound(instance)
}

fn joined(meaning: &Meaning, list: &[(Comparison, Join)], joins: &[(Join, bool)]) -> Judgement {
    let [(join, decider), tighter @ ..] = joins else { return meaning.judge(&list[0].0) };
    let mut steps = 0;
    for part in list.split_inclusive(|(_, after)| after == join) {
        let (holds, added) = joined(meaning, part, tighter);
        steps += added;
        if holds == *decider {
            return (holds, steps);
        }
    }
    (!decider, steps)
}
