//! Datetimes, several digits at a time (01, "Records"; 02, Q-6 for unknown digits). A text with unknown digits is read
//! as the text of its lowest moment and that of its highest.

use crate::bytes::{half, word};

/// Microseconds, lowest and highest; both are the same where all digits are known.
#[derive(Clone, Copy, Debug, PartialEq, Eq)]
pub struct Datetime {
    pub is_interval: bool,
    pub lowest: i64,
    pub highest: i64,
}

const LENGTH: usize = 25;
/// The last digit that may be unknown, as it then is.
const LAST: usize = 20;
const STARS: &[u8] = b"**************.******";

const ZEROS: u64 = 0x3030_3030_3030_3030;
const HIGH: u64 = 0x8080_8080_8080_8080;
const SIX: u64 = 0x0000_ffff_ffff_ffff;

const MONTHS: [u8; 16] = [0, 31, 28, 31, 30, 31, 30, 31, 31, 30, 31, 30, 31, 0, 0, 0];
const DAYS_BEFORE: [u16; 16] = [0, 0, 31, 59, 90, 120, 151, 181, 212, 243, 273, 304, 334, 0, 0, 0];

/// Whether bytes from which `0` was taken away are all below 10.
#[inline(always)]
fn are_digits(bytes: u64) -> bool {
    (bytes.wrapping_add(0x7676_7676_7676_7676) | bytes) & HIGH == 0
}

/// The numbers of pairs of digits, in every second byte.
#[inline(always)]
fn pairs(digits: u64) -> u64 {
    (digits.wrapping_mul(10).wrapping_add(digits >> 8)) & 0x00ff_00ff_00ff_00ff
}

#[inline(always)]
fn is_leap(century: u8, year: u8) -> bool {
    (if year != 0 { year } else { century }) % 4 == 0
}

/// `yyyymmdd` or the eight digits of an interval's days; `hhmmss.m`, whose point became 0; six digits of microseconds.
#[inline(always)]
fn parts(s: &[u8; LENGTH]) -> (u64, u64, u64) {
    (word(s, 0) ^ ZEROS, word(s, 8) ^ 0x302e_3030_3030_3030, (word(s, 15) ^ ZEROS) & SIX)
}

#[inline(always)]
pub fn is_datetime(body: &[u8]) -> bool {
    match <&[u8; LENGTH]>::try_from(body) {
        Ok(s) if s[LAST] != b'*' => is_exact(s),
        Ok(s) => is_starred(s),
        Err(_) => false,
    }
}

/// No moment is worked out.
#[inline(always)]
fn is_exact(s: &[u8; LENGTH]) -> bool {
    let (date, clock, micro) = parts(s);
    let zone = (half(s, 21) >> 8) ^ 0x0030_3030;
    let has_point = clock & 0x00ff_0000_0000_0000 == 0;
    if !(has_point & are_digits(date) & are_digits(clock) & are_digits(micro) & are_digits(u64::from(zone))) {
        return false;
    }
    // What is added carries from 24, 60 and 60 on into a byte's highest bit.
    let time = pairs(clock) & 0x0000_00ff_00ff_00ff;
    if (time + 0x0000_0044_0044_0068) & 0x0000_0080_0080_0080 != 0 {
        return false;
    }
    match s[21] {
        b':' => zone == 0,
        b'+' | b'-' => is_date(pairs(date).to_le_bytes()),
        _ => false,
    }
}

#[inline(always)]
fn is_date([century, _, year, _, month, _, day, _]: [u8; 8]) -> bool {
    month <= 12 && day.wrapping_sub(1) < month_length(century, year, month)
}

#[inline(always)]
fn month_length(century: u8, year: u8, month: u8) -> u8 {
    MONTHS[usize::from(month & 15)] + u8::from(month == 2 && is_leap(century, year))
}

#[cold]
#[inline(never)]
fn is_starred(s: &[u8; LENGTH]) -> bool {
    lowest(s).is_some_and(|text| is_exact(&text))
}

/// Of a text that is a datetime.
#[inline(always)]
pub fn read(body: &[u8]) -> Datetime {
    let s: &[u8; LENGTH] = body.try_into().unwrap();
    if s[LAST] == b'*' {
        return read_starred(s);
    }
    let moment = microseconds(s);
    Datetime { is_interval: s[21] == b':', lowest: moment, highest: moment }
}

#[cold]
#[inline(never)]
fn read_starred(s: &[u8; LENGTH]) -> Datetime {
    let (low, high) = (lowest(s).unwrap(), highest(s));
    Datetime { is_interval: s[21] == b':', lowest: microseconds(&low), highest: microseconds(&high) }
}

#[inline(always)]
fn microseconds(s: &[u8; LENGTH]) -> i64 {
    let (date, clock, micro) = parts(s);
    let [hour, _, minute, _, second, ..] = pairs(clock).to_le_bytes().map(u64::from);
    let [a, _, b, _, c, ..] = pairs(micro).to_le_bytes().map(u64::from);
    let clock = ((hour * 60 + minute) * 60 + second) * 1_000_000 + a * 10_000 + b * 100 + c;
    let [century, _, year, _, month, _, day, _] = pairs(date).to_le_bytes();
    let of_days = |days: u64| (days * 86_400_000_000 + clock) as i64;
    if s[21] == b':' {
        let [a, b, c, d] = [century, year, month, day].map(u64::from);
        return of_days(((a * 100 + b) * 100 + c) * 100 + d);
    }
    let zone = s[22..].iter().fold(0, |n, &digit| n * 10 + i64::from(digit - b'0')) * 60_000_000;
    let local = of_days(days(century, year, month, day));
    if s[21] == b'-' {
        local + zone
    } else {
        local - zone
    }
}

/// The days from the start of year 0, which is a leap year.
#[inline(always)]
fn days(century: u8, year: u8, month: u8, day: u8) -> u64 {
    let y = u64::from(century) * 100 + u64::from(year);
    let leap_days = y.div_ceil(4) - y.div_ceil(100) + y.div_ceil(400);
    let in_year = u64::from(DAYS_BEFORE[usize::from(month & 15)]) + u64::from(month > 2 && is_leap(century, year));
    365 * y + leap_days + in_year + u64::from(day) - 1
}

/// Where the unknown digits of a text start, if they may start there and go on to the last.
fn start_of_stars(s: &[u8; LENGTH]) -> Option<usize> {
    let start = s.iter().position(|&byte| byte == b'*')?;
    let starts: &[usize] = if s[21] == b':' { &[0, 8, 10, 12] } else { &[0, 4, 6, 8, 10, 12] };
    let may_start = start >= 15 || starts.contains(&start);
    (may_start && s[start..=LAST] == STARS[start..]).then_some(start)
}

/// The text with what is given for its unknown digits.
fn filled(s: &[u8; LENGTH], with: &[u8; LAST + 1]) -> Option<[u8; LENGTH]> {
    let start = start_of_stars(s)?;
    let mut text = *s;
    text[start..=LAST].copy_from_slice(&with[start..]);
    Some(text)
}

fn lowest(s: &[u8; LENGTH]) -> Option<[u8; LENGTH]> {
    filled(s, if s[21] == b':' { b"00000000000000.000000" } else { b"00000101000000.000000" })
}

/// Of a text that is a datetime. An unknown day is the last of its month.
fn highest(s: &[u8; LENGTH]) -> [u8; LENGTH] {
    if s[21] == b':' {
        return filled(s, b"99999999235959.999999").unwrap();
    }
    let mut text = filled(s, b"99991231235959.999999").unwrap();
    if s[6] == b'*' {
        let [century, _, year, _, month, ..] = pairs(word(&text, 0) ^ ZEROS).to_le_bytes();
        let day = month_length(century, year, month);
        text[6..8].copy_from_slice(&[b'0' + day / 10, b'0' + day % 10]);
    }
    text
}
