//! Random datetimes, and texts that are none.

use super::unknown_digits::{end, spoiled, with_tail};
use crate::datetime::parse;
use crate::random::Random;

const FIXED: [&str; 9] = [
    "20051003112233.000000+000",
    "20051003122233.000000+060",
    "20051003102233.000000-060",
    "20060101003000.000000+060",
    "20051231233000.000000+000",
    "00000101000000.000000+001",
    "00000229000000.000000-999",
    "00000001000000.000000:000",
    "99999999235959.999999:000",
];

/// A datetime; of every five, two have unknown digits.
pub fn text(r: &mut Random) -> String {
    let known = known(r);
    match r.below(5) {
        0 | 1 => with_tail(r, &known),
        _ => known,
    }
}

fn known(r: &mut Random) -> String {
    if r.chance(2) {
        return r.pick(&FIXED).to_owned();
    }
    loop {
        let any = r.below(10_000);
        let year = r.pick(&[0, 1, 4, 100, 400, 1899, 1900, 1999, 2000, 2004, 2005, 9999, any]);
        let (month, day) = (1 + r.below(12), 1 + r.below(31));
        let clock = clock(r);
        let found = match r.below(5) {
            0 => format!("{:08}{clock}:000", r.below(100_000_000)),
            1 => format!("{:08}{clock}:000", r.below(20)),
            _ => format!("{year:04}{month:02}{day:02}{clock}{}{:03}", r.pick(&['+', '-']), r.below(1_000)),
        };
        if parse(found.as_bytes()).is_some() {
            return found;
        }
    }
}

fn clock(r: &mut Random) -> String {
    let edge = r.pick(&["000000.000000", "235959.999999", "112233.000000"]);
    match r.chance(2) {
        true => edge.to_owned(),
        false => {
            format!("{:02}{:02}{:02}.{:06}", r.below(24), r.below(60), r.below(60), r.below(1_000_000))
        }
    }
}

/// A datetime near another: itself, the same moments written with another offset, one with more unknown digits, one at
/// an end of its span, or one that differs in a known digit.
pub fn near(r: &mut Random, text: &str) -> String {
    match r.below(8) {
        0 => text.to_owned(),
        1 | 2 => shifted(r, text),
        3 => with_tail(r, text),
        4 => end(r, text),
        _ => with_another_digit(r, text),
    }
}

/// The text itself, where no other is found.
fn with_another_digit(r: &mut Random, text: &str) -> String {
    let found = (0..20).find_map(|_| {
        let at = r.below(25);
        let digit = char::from(b'0' + r.below(10) as u8);
        let changed = format!("{}{digit}{}", &text[..at], &text[at + 1..]);
        (changed != text && parse(changed.as_bytes()).is_some()).then_some(changed)
    });
    found.unwrap_or(text.to_owned())
}

/// Some minutes later, so many minutes further from UTC; where the minutes are unknown, some hours.
fn shifted(r: &mut Random, text: &str) -> String {
    let (unit, at, units) = if &text[10..12] == "**" { (60, 8, 24) } else { (1, 10, 60) };
    let (Ok(found), Ok(offset)) = (text[at..at + 2].parse::<usize>(), text[22..25].parse::<usize>()) else {
        return text.to_owned();
    };
    let by = r.below(units - found);
    if &text[21..22] != "+" || offset + by * unit > 999 {
        return text.to_owned();
    }
    format!("{}{:02}{}{:03}", &text[..at], found + by, &text[at + 2..22], offset + by * unit)
}

/// A text that is no datetime.
pub fn malformed(r: &mut Random) -> String {
    loop {
        let mut text = known(r);
        let at = r.below(25);
        match r.below(12) {
            0 => text.truncate(at),
            1 => text.push('0'),
            2 => return r.pick(&["", "x", "NULL", "20051003112233", "\u{e9}0051003112233.000000+000"]).to_owned(),
            3 => text.replace_range(at..=at, "*"),
            4 => text.replace_range(4..8, r.pick(&["0229", "0230", "1301", "0000", "0431", "0100"])),
            // The first hour, minute and second that there isn't.
            5 => {
                let (field, value) = r.pick(&[(8, "24"), (10, "60"), (12, "60")]);
                text.replace_range(field..field + 2, value);
            }
            6 => text.replace_range(at..=at, &char::from(b'0' + r.below(10) as u8).to_string()),
            _ => text = spoiled(r, &text),
        }
        if parse(text.as_bytes()).is_none() {
            return text;
        }
    }
}
