//! The second evaluator on pairs of queries with hand-written texts.

use reference::conjoin;
use reference::examples::conjunctions;

#[test]
fn texts_and_refusals() {
    let examples = conjunctions::examples();
    println!("{} examples", examples.len());
    for e in examples {
        let mut buffer = e.buffer.clone();
        let found = conjoin(&e.first, &e.second, &e.table, &mut buffer);
        let shown = || format!("{} and {}", e.first.escape_ascii(), e.second.escape_ascii());
        assert_eq!((found, buffer), (e.expected, e.left.clone()), "{}", shown());
    }
}
