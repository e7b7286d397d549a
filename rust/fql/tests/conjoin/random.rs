//! Random pairs: texts, refusals, and what the texts include.

use reference::cases::conjoin::{random, with_a_fault, ConjoinCase};
use reference::random::{for_each_seed, Random};

use crate::hold::{conjoin, hold_meaning, hold_refusal, hold_text};
use crate::seen::Seen;

const PAIRS: usize = 5_000;
const FAULTY: usize = 8_000;

fn try_case(case: &ConjoinCase, seen: &mut Seen) {
    match conjoin(case, &case.buffer) {
        (Ok(length), left) => {
            hold_text(case, length, &left);
            seen.add_text(case, &left[..length]);
            for instance in &case.instances {
                seen.add_verdicts(hold_meaning(case, &left[..length], instance));
            }
        }
        (Err(refused), left) => {
            hold_refusal(case, refused, &left);
            seen.add_refusal(case, refused);
        }
    }
}

fn pairs(r: &mut Random) {
    let mut seen = Seen::default();
    for _ in 0..PAIRS {
        try_case(&random(r), &mut seen);
    }
    println!("{seen:?}");
    seen.assert_forms();
    seen.assert_sizes();
    seen.assert_verdicts();
}

#[test]
fn of_random_pairs() {
    for_each_seed(pairs);
}

fn faults(r: &mut Random) {
    let mut seen = Seen::default();
    for _ in 0..FAULTY {
        try_case(&with_a_fault(r), &mut seen);
    }
    println!("{seen:?}");
    seen.assert_numbers();
}

#[test]
fn of_random_faults() {
    for_each_seed(faults);
}
