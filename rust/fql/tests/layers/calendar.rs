//! A calendar that counts days one after the other, and datetimes written from a number of microseconds.

use std::sync::LazyLock;

pub const MINUTE: i64 = 60_000_000;
pub const HOUR: i64 = 60 * MINUTE;
pub const DAY: i64 = 24 * HOUR;
/// The days that an interval may have at most.
pub const MOST_DAYS: i64 = 99_999_999;

/// Every day of years 0 to 9999, in order.
pub static DAYS: LazyLock<Vec<Date>> = LazyLock::new(days);

#[derive(Clone, Copy, Debug, PartialEq, Eq)]
pub struct Date {
    pub year: i64,
    pub month: i64,
    pub day: i64,
}

fn length_of_month(year: i64, month: i64) -> i64 {
    match month {
        2 if year % 400 == 0 || (year % 4 == 0 && year % 100 != 0) => 29,
        2 => 28,
        4 | 6 | 9 | 11 => 30,
        _ => 31,
    }
}

impl Date {
    pub fn exists(self) -> bool {
        (1..=12).contains(&self.month) && (1..=length_of_month(self.year, self.month)).contains(&self.day)
    }

    pub fn next(self) -> Date {
        let Date { year, month, day } = self;
        let following = [
            Date { day: day + 1, ..self },
            Date { month: month + 1, day: 1, ..self },
            Date { year: year + 1, month: 1, day: 1 },
        ];
        following.into_iter().find(|date| date.exists()).unwrap()
    }
}

fn days() -> Vec<Date> {
    let first = Date { year: 0, month: 1, day: 1 };
    std::iter::successors(Some(first), |date| Some(date.next())).take_while(|date| date.year <= 9_999).collect()
}

fn clock(of_day: i64) -> String {
    let (minutes, rest) = (of_day / MINUTE, of_day % MINUTE);
    format!("{:02}{:02}{:02}.{:06}", minutes / 60, minutes % 60, rest / 1_000_000, rest % 1_000_000)
}

/// The timestamp of a day's microsecond, at so many minutes from UTC.
pub fn timestamp(date: Date, of_day: i64, offset: i64) -> String {
    let sign = if offset < 0 { '-' } else { '+' };
    let Date { year, month, day } = date;
    format!("{year:04}{month:02}{day:02}{}{sign}{:03}", clock(of_day), offset.abs())
}

/// The timestamp of a moment at so many minutes from UTC, if that is a time of the calendar.
pub fn timestamp_at(moment: i64, offset: i64) -> Option<String> {
    let local = moment + offset * MINUTE;
    let date = DAYS.get(usize::try_from(local.div_euclid(DAY)).ok()?)?;
    Some(timestamp(*date, local.rem_euclid(DAY), offset))
}

pub fn interval(length: i64) -> String {
    format!("{:08}{}:000", length / DAY, clock(length % DAY))
}

/// How many microseconds have the same digits before this place, which is behind those of a day.
fn length_of_unit(start: usize) -> i64 {
    match start {
        8 => DAY,
        10 => HOUR,
        12 => MINUTE,
        15..=21 => 10_i64.pow(21 - start as u32),
        other => panic!("no unit of a day ends at {other}"),
    }
}

/// The first and the last microsecond of an interval's unit.
pub fn unit_of_interval(length: i64, start: usize) -> (i64, i64) {
    if start == 0 {
        return (0, (MOST_DAYS + 1) * DAY - 1);
    }
    let first = length - length % length_of_unit(start);
    (first, first + length_of_unit(start) - 1)
}

/// The first and the last microsecond of the unit of the calendar that a local time is in: its days are those before
/// and behind it that are of the same year, or of the same month, one by one.
pub fn unit_of_calendar(local: i64, start: usize) -> (i64, i64) {
    let day = (local / DAY) as usize;
    let Date { year, month, .. } = DAYS[day];
    let is_inside = |date: &&Date| date.year == year && (start == 4 || date.month == month);
    match start {
        0 => (0, DAYS.len() as i64 * DAY - 1),
        4 | 6 => {
            let first = day - DAYS[..day].iter().rev().take_while(is_inside).count();
            let next = day + DAYS[day..].iter().take_while(is_inside).count();
            (first as i64 * DAY, next as i64 * DAY - 1)
        }
        _ => {
            let first = local - local % length_of_unit(start);
            (first, first + length_of_unit(start) - 1)
        }
    }
}
