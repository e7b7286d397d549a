//! Two inputs of one query on all evaluators: the same answer, or how often there are two.

use reference::cases::{call, Input};

use super::{agree, Found};

fn answers(inputs: [Input; 2]) -> [Found; 2] {
    inputs.map(|[query, table, instance]| agree(query, table, instance))
}

/// The one answer to both inputs, or the check's refusal of both.
pub fn same_answer(inputs: [Input; 2]) -> Found {
    let shown = || inputs.map(|input| call("agree", &input)).join("\n");
    let [first, second] = answers(inputs);
    assert_eq!(first, second, "{}", shown());
    for [query, table, _] in inputs {
        assert_eq!(first.err(), reference::check(query, table).err(), "{}", shown());
    }
    first
}

/// How many pairs have two verdicts, and how many two numbers of steps.
#[derive(Debug, Default)]
pub struct Differences {
    verdicts: usize,
    steps: usize,
}

impl Differences {
    pub fn add(&mut self, inputs: [Input; 2]) {
        if let [Ok(first), Ok(second)] = answers(inputs) {
            self.verdicts += usize::from(first.included != second.included);
            self.steps += usize::from(first.steps != second.steps);
        }
    }

    pub fn assert_at_least(&self, what: &str, verdicts: usize, steps: usize) {
        println!("{what}: {self:?}");
        assert!(self.verdicts >= verdicts && self.steps >= steps, "{what}: only {self:?}");
    }
}
