//! The second evaluator on runs, watched runs, fault texts and the program's files with hand-written answers.

use reference::examples::{fault_texts, programs, runs, watches};
use reference::program::output;
use reference::{fault_text, mark, watch};

#[test]
fn marks_and_totals() {
    for e in runs::examples() {
        let mut marks = e.marks.clone();
        let found = mark(&e.query, &e.table, &e.run, &mut marks);
        assert_eq!((found, marks), (e.expected, e.left), "{}", e.query.escape_ascii());
    }
}

#[test]
fn marks_and_totals_of_a_watch() {
    let examples = watches::examples();
    println!("{} examples", examples.len());
    for e in examples {
        let mut marks = e.marks.clone();
        let found = watch(&e.query, &e.table, &e.run, e.window, e.need, &mut marks);
        let shown = || format!("{} at window {}, need {}", e.query.escape_ascii(), e.window, e.need);
        assert_eq!((found, marks), (e.expected, e.left.clone()), "{}", shown());
    }
}

#[test]
fn fault_texts() {
    for e in fault_texts::examples() {
        let found = fault_text(fault_texts::QUERY, fault_texts::TABLE, e.number, e.place);
        assert_eq!(found, e.expected, "{} at {}", e.number, e.place);
    }
}

#[test]
fn lines_of_the_program() {
    for e in programs::examples() {
        assert_eq!(output(&e.files), e.expected, "{}", e.files.query.escape_ascii());
    }
}
