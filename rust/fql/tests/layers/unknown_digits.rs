//! Which texts with stars are datetimes, in values and in literals: over every run of stars and every two.

use crate::datetime::{hold_in_literal, hold_in_values};
use crate::made::{STARTS_OF_INTERVAL, STARTS_OF_TIMESTAMP};
use crate::seen::Seen;

const POINT: usize = 14;
const LAST_DIGIT: usize = 20;
/// A fault that no star takes away.
const OUTSIDE: usize = 21;

/// A text without stars, and where the field at fault starts; none in a datetime.
type Known = (&'static str, Option<usize>);

const TIMESTAMPS: [Known; 24] = [
    ("20051003112233.123456+060", None),
    ("20040229235959.999999-999", None),
    ("00000101000000.000000+999", None),
    ("20x51003112233.123456+060", Some(0)),
    ("20051303112233.123456+060", Some(4)),
    ("20050003112233.123456+060", Some(4)),
    ("2005x003112233.123456+060", Some(4)),
    ("20051000112233.123456+060", Some(6)),
    ("20051032112233.123456+060", Some(6)),
    ("20050229112233.123456+060", Some(6)),
    ("19000229112233.123456+060", Some(6)),
    ("20050431112233.123456+060", Some(6)),
    ("2005100x112233.123456+060", Some(6)),
    ("20051003242233.123456+060", Some(8)),
    ("20051003x12233.123456+060", Some(8)),
    ("20051003116033.123456+060", Some(10)),
    ("20051003112260.123456+060", Some(12)),
    ("20051003112233.x23456+060", Some(15)),
    ("20051003112233.12x456+060", Some(17)),
    ("20051003112233.12345x+060", Some(20)),
    ("20051003112233,123456+060", Some(OUTSIDE)),
    ("20051003112233.123456 060", Some(OUTSIDE)),
    ("20051003112233.123456+x60", Some(OUTSIDE)),
    ("20051003112233.123456+06x", Some(OUTSIDE)),
];

const INTERVALS: [Known; 13] = [
    ("00000123112233.123456:000", None),
    ("99999999235959.999999:000", None),
    ("0000012x112233.123456:000", Some(0)),
    ("x0000123112233.123456:000", Some(0)),
    ("00000123242233.123456:000", Some(8)),
    ("00000123116033.123456:000", Some(10)),
    ("00000123112260.123456:000", Some(12)),
    ("00000123112233.x23456:000", Some(15)),
    ("00000123112233.1234x6:000", Some(19)),
    ("00000123112233.12345x:000", Some(20)),
    ("00000123112233,123456:000", Some(OUTSIDE)),
    ("00000123112233.123456:001", Some(OUTSIDE)),
    ("00000123112233.123456:00x", Some(OUTSIDE)),
];

fn all() -> impl Iterator<Item = (Known, &'static [usize])> {
    let timestamps = TIMESTAMPS.into_iter().map(|known| (known, &STARTS_OF_TIMESTAMP[..]));
    timestamps.chain(INTERVALS.into_iter().map(|known| (known, &STARTS_OF_INTERVAL[..])))
}

fn starred(text: &str, stars: &[usize]) -> String {
    text.char_indices().map(|(n, c)| if stars.contains(&n) { '*' } else { c }).collect()
}

/// The stars are all the digits from a start on, and the field at fault is among them.
fn is_datetime(fault: Option<usize>, starts: &[usize], stars: &[usize]) -> bool {
    let Some(&first) = stars.first() else { return fault.is_none() };
    let tail: Vec<usize> = (first..=LAST_DIGIT).filter(|&n| n != POINT).collect();
    stars == tail && starts.contains(&first) && fault.is_none_or(|at| tail.contains(&at))
}

/// Each of these sets of stars, with the point among them as it is, and without it.
fn hold((text, fault): Known, starts: &[usize], sets: &[Vec<usize>], seen: &mut Seen) {
    let without_point = |stars: &Vec<usize>| stars.iter().copied().filter(|&n| n != POINT).collect();
    let mut sets: Vec<Vec<usize>> = sets.iter().flat_map(|stars| [stars.clone(), without_point(stars)]).collect();
    sets.sort();
    sets.dedup();
    let expected = |stars: &[usize]| is_datetime(fault, starts, stars);
    for stars in &sets {
        hold_in_literal(&format!("'{}'", starred(text, stars)), expected(stars));
        seen.add(if expected(stars) { "datetimes" } else { "other texts" });
    }
    let (good, bad): (Vec<_>, Vec<_>) = sets.iter().partition(|stars| expected(stars));
    for (sets, expected) in [(good, true), (bad, false)] {
        let texts: Vec<Vec<u8>> = sets.iter().map(|stars| starred(text, stars).into_bytes()).collect();
        hold_in_values(&texts, |_| expected);
    }
}

/// The places from one up to another, both ends included.
fn runs() -> Vec<Vec<usize>> {
    (0..25).flat_map(|from| (from..25).map(move |to| (from..=to).collect())).collect()
}

/// With good digits a tail may start at each of its places; with bad ones it has to cover them.
#[test]
fn every_run_of_stars() {
    let mut seen = Seen::default();
    let sets = [runs(), vec![Vec::new()]].concat();
    assert_eq!(sets.len(), 326);
    for (known, starts) in all() {
        hold(known, starts, &sets, &mut seen);
    }
    // The tails that cover a text's fault, those of the datetimes, and the datetimes themselves.
    seen.assert_at_least(&[("datetimes", 111 + 57), ("other texts", 17_000)]);
}

#[test]
fn every_two_runs_of_stars() {
    let mut seen = Seen::default();
    let follows = |a: &[usize], b: &[usize]| a[a.len() - 1] + 1 < b[0];
    let runs = runs();
    let behind = |a: &Vec<usize>| -> Vec<Vec<usize>> {
        runs.iter().filter(|b| follows(a, b)).map(|b| [a.clone(), b.clone()].concat()).collect()
    };
    let sets: Vec<Vec<usize>> = runs.iter().flat_map(behind).collect();
    for (known, starts) in [(TIMESTAMPS[0], &STARTS_OF_TIMESTAMP[..]), (INTERVALS[0], &STARTS_OF_INTERVAL)] {
        hold(known, starts, &sets, &mut seen);
    }
    // Two runs with the point alone between them are one tail, and so is a run behind the point that stays a point.
    seen.assert_at_least(&[("datetimes", 6 + 4 + 2 * 5), ("other texts", 40_000)]);
}

/// Each tail with a character less, or with one more at any place.
#[test]
fn of_another_length() {
    let mut texts = Vec::new();
    for ((text, _), starts) in [(TIMESTAMPS[0], &STARTS_OF_TIMESTAMP[..]), (INTERVALS[0], &STARTS_OF_INTERVAL)] {
        for &start in starts {
            let stars: Vec<usize> = (start..=LAST_DIGIT).filter(|&n| n != POINT).collect();
            let whole = starred(text, &stars);
            texts.extend((0..25).map(|at| format!("{}{}", &whole[..at], &whole[at + 1..])));
            texts.extend((0..=25).flat_map(|at| ["*", "0"].map(|c| format!("{}{c}{}", &whole[..at], &whole[at..]))));
        }
    }
    assert_eq!(texts.len(), (13 + 11) * (25 + 2 * 26));
    for text in &texts {
        hold_in_literal(&format!("'{text}'"), false);
    }
    hold_in_values(&texts.into_iter().map(String::into_bytes).collect::<Vec<_>>(), |_| false);
}
