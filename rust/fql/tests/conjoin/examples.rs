//! Pairs with the text or the refusal that is written out for them.

use reference::cases::call;
use reference::examples::conjunctions;

use crate::common::agree_on_conjoin;

#[test]
fn of_the_examples() {
    for e in conjunctions::examples() {
        let found = agree_on_conjoin(&e.first, &e.second, &e.table, &e.buffer);
        let shown = || call("agree_on_conjoin", &[&e.first, &e.second, &e.table, &e.buffer]);
        assert_eq!(found, (e.expected, e.left.clone()), "{}", shown());
    }
}

/// What stood in the buffer has no part in the text.
#[test]
fn of_any_old_contents() {
    for e in conjunctions::examples() {
        let Ok(length) = e.expected else { continue };
        for byte in [0, b'(', b' ', 255] {
            let buffer = vec![byte; e.buffer.len()];
            let (found, left) = agree_on_conjoin(&e.first, &e.second, &e.table, &buffer);
            assert_eq!((found, &left[..length]), (e.expected, &e.left[..length]));
            assert_eq!(left[length..], buffer[length..]);
        }
    }
}

/// The function with a vector of its own gives the same.
#[test]
fn of_a_buffer_for_every_text() {
    for e in conjunctions::examples() {
        let found = fql::conjunction(&e.first, &e.second, &e.table);
        let mut buffer = [0; fql::LONGEST_QUERY];
        let expected = fql::conjoin(&e.first, &e.second, &e.table, &mut buffer);
        assert_eq!(found, expected.map(|length| buffer[..length].to_vec()));
        if let Ok(length) = e.expected {
            assert_eq!(found.as_deref(), Ok(&e.left[..length]));
        }
    }
}
