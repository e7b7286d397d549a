//! Octets in values and in literals: an unsigned hex literal is its bytes, one for each pair of digits.

use fql::record::write;
use fql::types::OCTETS;
use reference::random::{for_each_seed, Random};

use crate::ask::{mark_of, marks, refusal, table};
use crate::seen::Seen;

fn spelled(r: &mut Random, bytes: &[u8]) -> String {
    let digits: String =
        bytes.iter().map(|byte| if r.chance(2) { format!("{byte:02x}") } else { format!("{byte:02X}") }).collect();
    format!("{}{digits}", r.pick(&["0x", "0X"]))
}

/// The bytes themselves, and others: one bit changed, turned around, one less, one more at either end, and none.
fn around(r: &mut Random, bytes: &[u8]) -> Vec<Vec<u8>> {
    let mut changed = bytes.to_vec();
    changed[r.below(bytes.len())] ^= 1 << r.below(8);
    let turned = bytes.iter().rev().copied().collect();
    let less = bytes[1..].to_vec();
    vec![bytes.to_vec(), changed, turned, less, [bytes, &[0]].concat(), [&[0], bytes].concat(), vec![]]
}

fn octets(r: &mut Random) {
    let (table, mut seen) = (table(&[OCTETS]), Seen::default());
    for _ in 0..20_000 {
        let n = if r.chance(50) { 1 + r.below(2_000) } else { 1 + r.below(12) };
        let bytes: Vec<u8> = (0..n).map(|_| r.byte()).collect();
        let literal = spelled(r, &bytes);
        let values = around(r, &bytes);
        let instances: Vec<Vec<u8>> = values.iter().map(|value| write(OCTETS, value)).collect();
        for (operator, equal) in [("=", true), ("<>", false)] {
            let expected: Vec<u8> = values.iter().map(|value| mark_of((*value == bytes) == equal)).collect();
            assert_eq!(marks(&format!("A {operator} {literal}"), &table, &instances), expected, "{literal}");
        }
        let signed = format!("A = {}{literal}", r.pick(&["+", "-"]));
        assert_eq!(refusal(signed.as_bytes(), &table), Some((21, 0)), "{signed}");
        seen.add(if n > 12 { "long" } else { "short" });
    }
    seen.assert_at_least(&[("short", 19_000), ("long", 200)]);
}

#[test]
fn literals_beside_values() {
    for_each_seed(octets);
}
