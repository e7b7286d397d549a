//! The random cases by themselves: the second evaluator gives what each was made for, within the bound, and no answer,
//! refusal or form of comparison is missing among them.

use reference::cases::spread::Spread;
use reference::cases::{call, random};
use reference::random::{for_each_seed, Random};
use reference::{bound, check, evaluate};

fn run(r: &mut Random) {
    let mut spread = Spread::default();
    for _ in 0..40_000 {
        let case = random(r);
        let found = evaluate(&case.query, &case.table, &case.instance);
        let (query, intended) = (String::from_utf8_lossy(&case.query), case.intended);
        assert!(case.is_intended(found), "{}: {found:?} in place of {intended:?}: {query}", case.sort);
        if let Err(refusal) = check(&case.query, &case.table) {
            assert_eq!(found, Err(refusal), "{query}");
        }
        if let Ok(answer) = found {
            let most = bound(&case.query, &case.table, &case.instance).unwrap();
            assert!(answer.steps <= most, "{} steps of {most}: {query}", answer.steps);
        }
        spread.add(&case, found);
    }
    spread.print();
    spread.assert_at_least(30);
}

#[test]
fn cases_give_what_they_were_made_for() {
    for_each_seed(run);
}

#[test]
fn a_case_is_shown_as_a_line_of_a_test() {
    let slices: [&[u8]; 3] = [b"S = '\x01\\'", b"\x00", b"\xff"];
    assert_eq!(call("agree", &slices), r#"agree(b"S = \'\x01\\\'", b"\x00", b"\xff");"#);
}
