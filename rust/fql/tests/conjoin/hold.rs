//! What holds of every pair, whichever its text is.

use reference::cases::call;
use reference::cases::conjoin::ConjoinCase;
use reference::syntax::parse;
use reference::{check, ConjoinRefusal, Refusal};

use crate::common::{agree, agree_on_conjoin};

pub type Conjoined = (Result<usize, ConjoinRefusal>, Vec<u8>);

/// The case with these bytes in the buffer before the call.
pub fn conjoin(case: &ConjoinCase, buffer: &[u8]) -> Conjoined {
    agree_on_conjoin(&case.first, &case.second, &case.table, buffer)
}

pub fn shown(case: &ConjoinCase) -> String {
    call("agree_on_conjoin", &[&case.first, &case.second, &case.table, &case.buffer])
}

/// A text is within a query's limits, whatever stood in the buffer; bytes beyond it stay.
pub fn hold_text(case: &ConjoinCase, length: usize, left: &[u8]) {
    let (text, beyond) = left.split_at(length);
    assert_eq!(beyond, &case.buffer[length..], "{}", shown(case));
    let inverted: Vec<u8> = case.buffer.iter().map(|byte| !byte).collect();
    let (again, other) = conjoin(case, &inverted);
    assert_eq!((again, &other[..length]), (Ok(length), text), "{}", shown(case));
    assert_eq!(other[length..], inverted[length..], "{}", shown(case));
    assert!(text.starts_with(b"(") && text.ends_with(b")"), "{}", shown(case));
    assert!(length <= 4_096 && parse(text).unwrap().len() <= 64, "{}", shown(case));
}

/// The text is accepted and includes an instance exactly where both queries do; which of them include it.
pub fn hold_meaning(case: &ConjoinCase, text: &[u8], instance: &[u8]) -> [bool; 2] {
    let included = |query: &[u8]| match agree(query, &case.table, instance) {
        Ok(answer) => answer.included,
        Err(refusal) => panic!("{refusal:?}: {}", call("agree", &[query, &case.table, instance])),
    };
    let both = [included(&case.first), included(&case.second)];
    let shown = || format!("{}\n{}", shown(case), call("agree", &[text, &case.table, instance]));
    assert_eq!(included(text), both == [true, true], "{}", shown());
    both
}

/// The check of the first, of the second, and then 43 for every buffer or 44 for the short ones.
pub fn hold_refusal(case: &ConjoinCase, refused: ConjoinRefusal, left: &[u8]) {
    assert_eq!(left, case.buffer, "{}", shown(case));
    let of = |query, refusal| ConjoinRefusal { query, refusal };
    if let Err(refusal) = check(&case.first, &case.table) {
        return assert_eq!(refused, of(1, refusal), "{}", shown(case));
    }
    if let Err(refusal) = check(&case.second, &case.table) {
        return assert_eq!(refused, of(2, refusal), "{}", shown(case));
    }
    let (enough, _) = conjoin(case, &[7; 4_096]);
    match enough {
        Ok(length) => {
            assert_eq!(refused, of(0, Refusal { number: 44, place: 0 }), "{}", shown(case));
            assert!(length > case.buffer.len(), "{}", shown(case));
        }
        Err(again) => {
            assert_eq!(again, of(0, Refusal { number: 43, place: 0 }), "{}", shown(case));
            assert_eq!(refused, again, "{}", shown(case));
        }
    }
}
