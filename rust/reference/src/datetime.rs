//! Datetimes by counting days one year and one month at a time. Unknown digits (02, Q-6) are filled in, once with the
//! lowest and once with the highest, and both texts are read like any other.

use std::cmp::Ordering;
use std::sync::OnceLock;

/// The lowest and the highest number that a text may stand for: one number, where all its digits are known.
#[derive(Clone, Copy, Debug, PartialEq, Eq)]
pub struct Span {
    pub lowest: i128,
    pub highest: i128,
}

#[derive(Clone, Copy, Debug, PartialEq, Eq)]
pub enum Datetime {
    /// Microseconds from the start of year 0000, UTC.
    Timestamp(Span),
    /// Microseconds.
    Interval(Span),
}

impl Datetime {
    pub fn span(self) -> Span {
        match self {
            Datetime::Timestamp(span) | Datetime::Interval(span) => span,
        }
    }

    pub fn has_unknown_digits(self) -> bool {
        self.span().lowest < self.span().highest
    }
}

/// Where unknown digits may start, and what is filled in for them up to the last microsecond digit. Of the highest
/// texts it is the first that is a datetime.
struct Form {
    starts: &'static [usize],
    lowest: &'static str,
    highest: &'static [&'static str],
}

/// The place behind the last microsecond digit. From there on nothing is unknown, and so it is a start as well.
const END: usize = 21;
const STARS: &str = "**************.******";

const TIMESTAMP: Form = Form {
    starts: &[0, 4, 6, 8, 10, 12, 15, 16, 17, 18, 19, 20, END],
    lowest: "00000101000000.000000",
    highest: &["99991231235959.999999", "99991230235959.999999", "99991229235959.999999", "99991228235959.999999"],
};

const INTERVAL: Form = Form {
    starts: &[0, 8, 10, 12, 15, 16, 17, 18, 19, 20, END],
    lowest: "00000000000000.000000",
    highest: &["99999999235959.999999"],
};

fn is_leap(year: u32) -> bool {
    (year.is_multiple_of(4) && !year.is_multiple_of(100)) || year.is_multiple_of(400)
}

fn month_length(year: u32, month: u32) -> u32 {
    match month {
        4 | 6 | 9 | 11 => 30,
        2 if is_leap(year) => 29,
        2 => 28,
        _ => 31,
    }
}

/// The days before each year, counted once, one year after the other.
fn days_before_year(year: u32) -> u32 {
    static DAYS: OnceLock<Vec<u32>> = OnceLock::new();
    let counted = DAYS.get_or_init(|| {
        let mut days = vec![0];
        for y in 0..9_999 {
            days.push(days[y as usize] + if is_leap(y) { 366 } else { 365 });
        }
        days
    });
    counted[year as usize]
}

fn days_before(year: u32, month: u32, day: u32) -> i128 {
    let months: u32 = (1..month).map(|m| month_length(year, m)).sum();
    i128::from(days_before_year(year) + months + day - 1)
}

fn number(text: &[u8]) -> Option<i128> {
    text.iter().try_fold(0, |n, &b| b.is_ascii_digit().then(|| n * 10 + i128::from(b - b'0')))
}

/// The number that a text of 25 known characters stands for: `yyyymmddhhmmss.mmmmmm` with a sign and three digits, or
/// `ddddddddhhmmss.mmmmmm:000`.
fn microseconds(text: &[u8]) -> Option<i128> {
    if text[14] != b'.' {
        return None;
    }
    let (hour, minute, second) = (number(&text[8..10])?, number(&text[10..12])?, number(&text[12..14])?);
    let (micro, zone) = (number(&text[15..21])?, number(&text[22..25])?);
    let days = number(&text[0..8])?;
    if hour > 23 || minute > 59 || second > 59 {
        return None;
    }
    let clock = ((hour * 60 + minute) * 60 + second) * 1_000_000 + micro;
    if text[21] == b':' {
        return (zone == 0).then_some(days * 86_400_000_000 + clock);
    }
    let date = days as u32;
    let (year, month, day) = (date / 10_000, date / 100 % 100, date % 100);
    if !(1..=12).contains(&month) || day < 1 || day > month_length(year, month) {
        return None;
    }
    let local = days_before(year, month, day) * 86_400_000_000 + clock;
    match text[21] {
        b'+' => Some(local - zone * 60_000_000),
        b'-' => Some(local + zone * 60_000_000),
        _ => None,
    }
}

impl Form {
    /// The span of a text whose unknown digits are all those from here on.
    fn span_from(&self, start: usize, text: &[u8]) -> Option<Span> {
        if text[start..END] != STARS.as_bytes()[start..] {
            return None;
        }
        let filled = |with: &&str| microseconds(&[&text[..start], &with.as_bytes()[start..], &text[END..]].concat());
        Some(Span { lowest: filled(&self.lowest)?, highest: self.highest.iter().find_map(filled)? })
    }

    fn span(&self, text: &[u8]) -> Option<Span> {
        self.starts.iter().find_map(|&start| self.span_from(start, text))
    }
}

/// A timestamp or an interval, told by the character behind the microseconds.
pub fn parse(text: &[u8]) -> Option<Datetime> {
    match (text.len(), text.get(END)) {
        (25, Some(b':')) => INTERVAL.span(text).map(Datetime::Interval),
        (25, _) => TIMESTAMP.span(text).map(Datetime::Timestamp),
        _ => None,
    }
}

/// How two datetimes stand to each other: a timestamp and an interval do not, nor do two spans that have a moment in
/// common and aren't the same.
pub fn order(a: Datetime, b: Datetime) -> Option<Ordering> {
    match (a, b) {
        (Datetime::Timestamp(x), Datetime::Timestamp(y)) => order_of_spans(x, y),
        (Datetime::Interval(x), Datetime::Interval(y)) => order_of_spans(x, y),
        _ => None,
    }
}

fn order_of_spans(a: Span, b: Span) -> Option<Ordering> {
    if a.lowest == b.lowest && a.highest == b.highest {
        return Some(Ordering::Equal);
    }
    if a.highest < b.lowest {
        return Some(Ordering::Less);
    }
    (a.lowest > b.highest).then_some(Ordering::Greater)
}

#[cfg(test)]
mod tests {
    use super::*;

    fn span(text: &str) -> Option<Span> {
        parse(text.as_bytes()).map(Datetime::span)
    }

    /// Counted by hand: the days of year 0000, of all years, and of all intervals.
    #[test]
    fn ends_as_numbers() {
        let day = 86_400_000_000;
        let all_but_one = |days: i128| Some(Span { lowest: 0, highest: days * day - 1 });
        assert_eq!(span("0000**********.******+000"), all_but_one(366));
        assert_eq!(span("**************.******+000"), all_but_one(3_652_425));
        assert_eq!(span("**************.******:000"), all_but_one(100_000_000));
        assert_eq!(span("00000001000000.00000*:000"), Some(Span { lowest: day, highest: day + 9 }));
        assert_eq!(
            span("000001********.******+001"),
            Some(Span { lowest: -60_000_000, highest: 31 * day - 60_000_001 })
        );
    }

    /// A text with unknown digits, and the texts of its ends.
    const ENDS: [[&str; 3]; 9] = [
        ["200502********.******+060", "20050201000000.000000+060", "20050228235959.999999+060"],
        ["200402********.******-060", "20040201000000.000000-060", "20040229235959.999999-060"],
        ["190002********.******+000", "19000201000000.000000+000", "19000228235959.999999+000"],
        ["200504********.******+000", "20050401000000.000000+000", "20050430235959.999999+000"],
        ["2005**********.******+000", "20050101000000.000000+000", "20051231235959.999999+000"],
        ["20051003******.******+000", "20051003000000.000000+000", "20051003235959.999999+000"],
        ["20051003112233.1234**+000", "20051003112233.123400+000", "20051003112233.123499+000"],
        ["0000000711****.******:000", "00000007110000.000000:000", "00000007115959.999999:000"],
        ["20051003112233.000000+000", "20051003112233.000000+000", "20051003112233.000000+000"],
    ];

    #[test]
    fn ends_as_texts() {
        for [text, lowest, highest] in ENDS {
            let ends = Span { lowest: span(lowest).unwrap().lowest, highest: span(highest).unwrap().highest };
            assert_eq!(span(text), Some(ends), "{text}");
        }
    }

    /// Of texts whose known digits are all good.
    #[test]
    fn where_tails_start() {
        let timestamps: &[usize] = &[0, 4, 6, 8, 10, 12, 15, 16, 17, 18, 19, 20];
        let intervals: &[usize] = &[0, 8, 10, 12, 15, 16, 17, 18, 19, 20];
        for (text, starts) in [("20051003112233.000000+000", timestamps), ("00000001112233.000000:000", intervals)] {
            for start in (0..END).filter(|&start| start != 14) {
                let starred = format!("{}{}{}", &text[..start], &STARS[start..], &text[END..]);
                assert_eq!(span(&starred).is_some(), starts.contains(&start), "{starred}");
            }
        }
    }

    #[test]
    fn order_of_two_spans() {
        let parsed = |text: &str| parse(text.as_bytes()).unwrap();
        for (a, b, expected) in [
            ("200510031122**.******+000", "200510031123**.******+000", Some(Ordering::Less)),
            ("20051003112300.000000+000", "200510031122**.******+000", Some(Ordering::Greater)),
            ("2005100311****.******+000", "2005100312****.******+060", Some(Ordering::Equal)),
            ("200510031122**.******+000", "20051003112200.000000+000", None),
            ("200510031122**.******+000", "2005100311****.******+000", None),
            ("**************.******+000", "**************.******:000", None),
        ] {
            assert_eq!(order(parsed(a), parsed(b)), expected, "{a} beside {b}");
            assert_eq!(order(parsed(b), parsed(a)), expected.map(Ordering::reverse), "{b} beside {a}");
        }
    }
}
