//! How the cases of a run are spread over answers, refusals, forms of comparison and kinds of operands.

use std::collections::BTreeMap;

use super::operands::Operands;
use super::spans::Spans;
use super::Case;
use crate::check::{self, find};
use crate::instance::decode;
use crate::kind::is_array;
use crate::meaning::Meaning;
use crate::syntax::{Comparison, Operation, Quantifier, Right};
use crate::{Answer, Refusal};

pub const NUMBERS: [u64; 14] = [1, 2, 3, 10, 11, 12, 20, 21, 22, 23, 24, 25, 30, 31];

pub const FORMS: [&str; 11] = [
    "scalar literal",
    "scalar property",
    "array literal",
    "array property",
    "index",
    "ANY",
    "EVERY",
    "NOT ANY",
    "NOT EVERY",
    "LIKE",
    "NOT LIKE",
];

#[derive(Default)]
pub struct Spread {
    pub cases: usize,
    pub sorts: BTreeMap<&'static str, usize>,
    pub refusals: BTreeMap<u64, usize>,
    /// Included and excluded.
    pub verdicts: [usize; 2],
    /// Comparisons of evaluated queries.
    pub forms: BTreeMap<&'static str, usize>,
    /// Queries of one comparison, included and excluded.
    pub single: BTreeMap<&'static str, [usize; 2]>,
    pub operands: Operands,
    pub spans: Spans,
}

/// The form of a comparison; one with an index is of that form, unless it is a LIKE.
fn form(c: &Comparison, left_is_array: bool) -> &'static str {
    match (c.quantifier, c.negated, c.operation, &c.right) {
        (_, _, Operation::Like, _) => "LIKE",
        (_, _, Operation::NotLike, _) => "NOT LIKE",
        (Quantifier::Any, false, ..) => "ANY",
        (Quantifier::Any, true, ..) => "NOT ANY",
        (Quantifier::Every, false, ..) => "EVERY",
        (Quantifier::Every, true, ..) => "NOT EVERY",
        _ if c.left.index.is_some() => "index",
        (.., Right::Elements(_)) => "array literal",
        (.., Right::Literal(_)) => "scalar literal",
        _ if left_is_array => "array property",
        _ => "scalar property",
    }
}

impl Spread {
    pub fn add(&mut self, case: &Case, found: Result<Answer, Refusal>) {
        self.cases += 1;
        *self.sorts.entry(case.sort).or_default() += 1;
        let answer = match found {
            Err(refusal) => {
                self.spans.add_refused(case, refusal);
                return *self.refusals.entry(refusal.number).or_default() += 1;
            }
            Ok(answer) => answer,
        };
        let verdict = usize::from(!answer.included);
        self.verdicts[verdict] += 1;
        let (table, comparisons) = check::read(&case.query, &case.table).unwrap();
        let slots = decode(&table, &case.instance).unwrap();
        let meaning = Meaning { query: &case.query, table: &table, slots: &slots };
        for (c, _) in &comparisons {
            let array = find(&case.query, &table, &c.left).is_some_and(|(_, kind)| is_array(kind));
            let form = form(c, array);
            *self.forms.entry(form).or_default() += 1;
            self.spans.add(&meaning, c);
            let alone = comparisons.len() == 1;
            self.operands.add(&case.query, &table, c, alone.then_some(answer.included));
            if alone {
                self.single.entry(form).or_default()[verdict] += 1;
            }
        }
    }

    pub fn print(&self) {
        println!("{} cases: {:?}", self.cases, self.sorts);
        println!("refused, by number: {:?}", self.refusals);
        println!("included {}, excluded {}", self.verdicts[0], self.verdicts[1]);
        println!("comparisons of evaluated queries, by form: {:?}", self.forms);
        println!("queries of one comparison, [included, excluded]: {:?}", self.single);
        println!("comparisons and queries of one, by side and kind: {}", self.operands);
        println!("datetimes with unknown digits: {}", self.spans);
    }

    /// Every number, verdict, form and kind of operand comes up at least so often; a form alone in a query with each
    /// verdict a third as often, and each sort of unknown digits half as often.
    pub fn assert_at_least(&self, least: usize) {
        for number in NUMBERS {
            let n = self.refusals.get(&number).copied().unwrap_or(0);
            assert!(n >= least, "only {n} cases were refused with {number}");
        }
        assert!(self.verdicts.iter().all(|&n| n >= least), "{:?}", self.verdicts);
        for form in FORMS {
            let n = self.forms.get(form).copied().unwrap_or(0);
            assert!(n >= least, "only {n} comparisons were of the form {form}");
            let single = self.single.get(form).copied().unwrap_or([0, 0]);
            assert!(single.iter().all(|&n| 3 * n >= least), "{form} alone: {single:?}");
        }
        self.operands.assert_at_least(least);
        self.spans.assert_at_least(least);
    }
}
