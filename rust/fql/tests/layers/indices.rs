//! Indices within an array and past its end, on either side: past the end, and into NULL, they read NULL.

use std::collections::BTreeSet;

use fql::record::{write, ARRAY, NULL};
use fql::types::{STRING, UINT16};
use reference::kind::TYPES;
use reference::Answer;

use crate::ask::table;
use crate::common::agree;
use crate::tables::some_value;

/// How many elements an array has, none where it is NULL.
type Size = Option<usize>;

const SIZES: [Size; 6] = [None, Some(0), Some(1), Some(2), Some(255), Some(256)];

/// Around the array's end, around the longest array's, and the largest.
fn indices(size: Size) -> BTreeSet<usize> {
    let end = size.unwrap_or(0);
    [0, end.saturating_sub(1), end, end + 1, 255, 256, 65_535].into()
}

fn array(kind: u16, size: Size, element: impl Fn(usize) -> Vec<u8>) -> Vec<u8> {
    match size {
        Some(size) => write(ARRAY | kind, &(0..size).flat_map(element).collect::<Vec<_>>()),
        None => write(NULL, &[]),
    }
}

fn is_within(size: Size, index: usize) -> bool {
    size.is_some_and(|size| index < size)
}

/// Verdict and steps on the engine and on the second evaluator.
fn hold(query: &str, kinds: &[u16], instance: &[u8], included: bool, steps: u64) {
    let found = agree(query.as_bytes(), &table(kinds), instance);
    assert_eq!(found, Ok(Answer { included, steps }), "{query} on {}", instance.escape_ascii());
}

/// `B` is the array, between two values like its elements: read past its end, it would go on with one. `D` holds such a
/// value and NULL.
fn hold_to_size(kind: u16, size: Size, index: usize) {
    let (kinds, value) = ([kind, ARRAY | kind, kind, ARRAY | kind], some_value(kind));
    let pair = write(ARRAY | kind, &[value.clone(), write(NULL, &[])].concat());
    let instance = [value.clone(), array(kind, size, |_| value.clone()), value, pair].concat();
    let (b, within) = (format!("B[{index}]"), is_within(size, index));
    for (query, included) in [
        (format!("{b} = NULL"), !within),
        (format!("{b} <> NULL"), within),
        (format!("{b} = C"), within),
        (format!("{b} = D[0]"), within),
        (format!("{b} = D[2]"), !within),
        (format!("D[0] = {b}"), within),
        (format!("D[1] = {b}"), !within),
        (format!("D[2] <> {b}"), within),
        (format!("{b} = {b}"), true),
    ] {
        hold(&query, &kinds, &instance, included, 1);
    }
    hold(&format!("ANY D = {b}"), &kinds, &instance, true, if within { 2 } else { 3 });
    hold(&format!("EVERY D = {b}"), &kinds, &instance, false, if within { 3 } else { 2 });
}

#[test]
fn into_arrays_of_every_type_and_size() {
    for (kind, size) in TYPES.into_iter().flat_map(|kind| SIZES.map(|size| (kind, size))) {
        for index in indices(size) {
            hold_to_size(kind, size, index);
        }
    }
}

/// Of the element with this number the body and a literal.
type Element = fn(usize) -> (Vec<u8>, String);

fn number(n: usize) -> (Vec<u8>, String) {
    (n.to_le_bytes()[..2].to_vec(), n.to_string())
}

/// Of many lengths.
fn text(n: usize) -> (Vec<u8>, String) {
    let text = format!("{n}{}", "x".repeat(n * 7 % 40));
    (text.clone().into_bytes(), format!("'{text}'"))
}

/// Elements that are all different, with NULL for each third: an index finds its own, and past the end NULL. `B` has
/// the value that is looked for.
fn hold_to_element(kind: u16, element: Element, size: Size, index: usize) {
    let of = |n: usize| if n % 3 == 2 { write(NULL, &[]) } else { write(kind, &element(n).0) };
    let (body, literal) = element(index);
    let instance = [array(kind, size, of), write(ARRAY | kind, &write(kind, &body))].concat();
    let found = is_within(size, index) && index % 3 != 2;
    for (query, included) in [
        (format!("A[{index}] = {literal}"), found),
        (format!("A[{index}] = B[0]"), found),
        (format!("B[0] = A[{index}]"), found),
        (format!("A[{index}] = NULL"), !found),
        (format!("B[1] = A[{index}]"), !found),
    ] {
        hold(&query, &[ARRAY | kind, ARRAY | kind], &instance, included, 1);
    }
}

#[test]
fn at_every_element() {
    for (kind, element) in [(UINT16, number as Element), (STRING, text)] {
        for (size, index) in SIZES.into_iter().flat_map(|size| (0..260).map(move |index| (size, index))) {
            hold_to_element(kind, element, size, index);
        }
    }
}
