//! The examples with hand-written answers, on the engine, the second evaluator and the tuned engine.

mod common;

use common::agree;
use reference::cases::call;
use reference::examples::{self, Example};

fn hold(examples: Vec<Example>) {
    println!("{} examples", examples.len());
    for e in examples {
        let found = agree(&e.query, &e.table, &e.instance);
        let shown = || call("agree", &[&e.query, &e.table, &e.instance]);
        assert!(e.expected.is(found), "both say {found:?} in place of {:?}:\n{}", e.expected, shown());
    }
}

#[test]
fn of_the_sample_class() {
    hold(examples::sample::examples());
}

#[test]
fn of_dsp0212() {
    hold(examples::dsp0212::examples());
}

#[test]
fn of_the_wrong_turns() {
    hold(examples::wrong_turns::examples());
}

#[test]
fn of_tables_and_instances() {
    hold(examples::records::examples());
}

#[test]
fn of_tokens_and_grammar() {
    hold(examples::text::examples());
}

#[test]
fn of_the_limits_of_a_text() {
    hold(examples::limits::examples());
}

#[test]
fn of_literals() {
    hold(examples::literals::examples());
}

#[test]
fn of_rows_operators_and_shapes() {
    hold(examples::kinds::examples());
}

#[test]
fn of_integer_widths() {
    hold(examples::widths::examples());
}

#[test]
fn of_comparisons_and_steps() {
    hold(examples::meaning::examples());
}

#[test]
fn of_and_and_or() {
    hold(examples::joins::examples());
}

#[test]
fn of_datetimes() {
    hold(examples::datetimes::examples());
}

#[test]
fn of_unknown_digits() {
    hold(examples::unknown_digits::examples());
}

#[test]
fn of_spans() {
    hold(examples::spans::examples());
}

#[test]
fn of_patterns() {
    hold(examples::patterns::examples());
}

#[test]
fn of_the_order_of_refusals() {
    hold(examples::precedence::examples());
}

/// Each section above is one of all.
#[test]
fn no_section_is_left_out() {
    assert_eq!(examples::all().len(), 16);
}

#[test]
fn empty_slices() {
    let class = [1, 0, 0, 2, b'P'];
    for (query, table) in [(&b""[..], &b""[..]), (b"", &class), (b"x = 1", &class), (b"x = 1", b"")] {
        assert!(agree(query, table, &[]).is_err());
    }
}
