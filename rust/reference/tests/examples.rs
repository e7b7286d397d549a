//! The second evaluator on the examples with hand-written answers.

use reference::examples::all;
use reference::examples::setting::sample;
use reference::{bound, check, evaluate};

#[test]
fn the_answers_written_out() {
    let mut wrong = Vec::new();
    for (section, examples) in all() {
        println!("{section}: {} examples", examples.len());
        for e in examples {
            let found = evaluate(&e.query, &e.table, &e.instance);
            if !e.expected.is(found) {
                let query = String::from_utf8_lossy(&e.query).into_owned();
                wrong.push(format!("{section}: {query:?}: {found:?} in place of {:?}", e.expected));
            }
        }
    }
    assert!(wrong.is_empty(), "{}", wrong.join("\n"));
}

/// Evaluation refuses what the check refuses, and after that only 30 and 31; steps stay within the bound.
#[test]
fn check_and_bound() {
    for (_, examples) in all() {
        for e in examples {
            let found = evaluate(&e.query, &e.table, &e.instance);
            match check(&e.query, &e.table) {
                Err(refusal) => assert_eq!(found, Err(refusal)),
                Ok(()) => assert!(found.is_ok() || matches!(found, Err(r) if r.number == 30 || r.number == 31)),
            }
            if let Ok(answer) = found {
                assert!(answer.steps <= bound(&e.query, &e.table, &e.instance).unwrap());
            }
        }
    }
}

const TABLE: &[u8] =
    b"\x01\0\0\x02P\x02\0\x01\0On\x04\0\x28\0Temp\x03\0\x18\x01Dev\x04\0\x06\0Name\x05\0\x09\0Since\x01\0\x05\0R";

const INSTANCE: [&[u8]; 8] = [
    b"\x01\0\x01\0\x01",
    b"\x08\0\x28\0\xfb\xff\xff\xff\xff\xff\xff\xff",
    b"\x18\0\x18\x01",
    b"\x08\0\x18\0\x03\0\0\0\0\0\0\0",
    b"\x08\0\x18\0\x0e\0\0\0\0\0\0\0",
    b"\x05\0\x06\0FAN_2",
    b"\x19\0\x09\x0020051003112233.000000+000",
    b"\x08\0\x05\0\0\0\0\0\0\0\xe0\x3f",
];

/// 01's example with the kinds of 02, Q-2: Temp is 0x0028, Dev 0x0118.
#[test]
fn the_bytes_of_the_sample() {
    assert_eq!(sample().table(), TABLE);
    assert_eq!(sample().instance(), INSTANCE.concat());
}
