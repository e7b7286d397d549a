//! Datetimes made from a number of microseconds, with digits that are then made unknown.

use std::cmp::Ordering;

use fql::record::write;
use fql::types::DATETIME;
use reference::random::Random;

use crate::calendar::{interval, timestamp_at, unit_of_calendar, unit_of_interval, DAY, DAYS, MINUTE, MOST_DAYS};

/// Where unknown digits may start; the last of each is the place behind the digits, so that none is.
pub const STARTS_OF_TIMESTAMP: [usize; 13] = [0, 4, 6, 8, 10, 12, 15, 16, 17, 18, 19, 20, END];
pub const STARTS_OF_INTERVAL: [usize; 11] = [0, 8, 10, 12, 15, 16, 17, 18, 19, 20, END];
const END: usize = 21;

/// A datetime, with the lowest and the highest number of microseconds that it may stand for.
#[derive(Clone, Debug)]
pub struct Made {
    pub text: String,
    pub is_interval: bool,
    pub lowest: i64,
    pub highest: i64,
    offset: i64,
    start: usize,
}

impl Made {
    pub fn timestamp(moment: i64, offset: i64) -> Option<Made> {
        let text = timestamp_at(moment, offset)?;
        Some(Made { text, is_interval: false, lowest: moment, highest: moment, offset, start: END })
    }

    pub fn interval(length: i64) -> Option<Made> {
        let exists = (0..(MOST_DAYS + 1) * DAY).contains(&length);
        let text = exists.then(|| interval(length))?;
        Some(Made { text, is_interval: true, lowest: length, highest: length, offset: 0, start: END })
    }

    /// The same with unknown digits from this place on.
    pub fn starred(&self, start: usize) -> Made {
        let later = self.offset * MINUTE;
        let (first, last) = match self.is_interval {
            true => unit_of_interval(self.lowest, start),
            false => unit_of_calendar(self.lowest + later, start),
        };
        let star = |(n, c)| if (start..END).contains(&n) && c != '.' { '*' } else { c };
        let text = self.text.chars().enumerate().map(star).collect();
        Made { text, lowest: first - later, highest: last - later, start, ..self.clone() }
    }

    pub fn is_span(&self) -> bool {
        self.lowest < self.highest
    }

    pub fn record(&self) -> Vec<u8> {
        write(DATETIME, self.text.as_bytes())
    }

    pub fn order(&self, other: &Made) -> Option<Ordering> {
        if self.is_interval != other.is_interval {
            return None;
        }
        let ends = [self.lowest.cmp(&other.lowest), self.highest.cmp(&other.highest)];
        match (self.highest < other.lowest, other.highest < self.lowest) {
            (true, _) => Some(Ordering::Less),
            (_, true) => Some(Ordering::Greater),
            _ => (ends == [Ordering::Equal; 2]).then_some(Ordering::Equal),
        }
    }

    /// A timestamp of this moment at any offset that has it, the first of these if it can be.
    pub fn at_some_offset(moment: i64, first: &[i64]) -> Option<Made> {
        first.iter().chain(&[0, 1, -1, 999, -999]).find_map(|&offset| Made::timestamp(moment, offset))
    }

    fn at(r: &mut Random, is_interval: bool, microseconds: i64) -> Made {
        if is_interval {
            return Made::interval(microseconds.clamp(0, MOST_DAYS * DAY + DAY - 1)).unwrap();
        }
        let any = r.below(1_999) as i64 - 999;
        let near = r.pick(&[0, 0, 1, -1, 60, -60, 999, -999]);
        // A moment outside the calendar in UTC may be inside it with another offset.
        let made = Made::at_some_offset(microseconds, &[near, any]);
        made.unwrap_or_else(|| Made::at(r, is_interval, microseconds.clamp(0, DAYS.len() as i64 * DAY - 1)))
    }

    /// The same with unknown digits from any place on, or with none.
    fn starred_somewhere(self, r: &mut Random) -> Made {
        let start = if self.is_interval { r.pick(&STARTS_OF_INTERVAL) } else { r.pick(&STARTS_OF_TIMESTAMP) };
        self.starred(start)
    }

    pub fn random(r: &mut Random) -> Made {
        let is_interval = r.chance(4);
        let days = if is_interval { MOST_DAYS } else { DAYS.len() as i64 - 1 };
        let any = r.below(days as usize + 1) as i64;
        let day = r.pick(&[any, any, any, 0, -1, days, 59, 60, 365, 366, 146_096, 146_097]);
        let any = r.below(DAY as usize) as i64;
        let of_day = r.pick(&[0, 1, DAY - 1, any]);
        let made = Made::at(r, is_interval, day * DAY + of_day);
        if r.chance(2) {
            made
        } else {
            made.starred_somewhere(r)
        }
    }

    /// One that is near: at an end or one unit from it, written anew, with as many unknown digits, or others, or none.
    pub fn near(&self, r: &mut Random) -> Made {
        let unit = r.pick(&[1, 1_000_000, 60_000_000, 3_600_000_000, DAY, 28 * DAY, 365 * DAY, 400 * 365 * DAY]);
        let by = r.pick(&[0, 0, 1, -1]) * unit;
        let is_interval = self.is_interval != r.chance(8);
        let end = r.pick(&[self.lowest, self.highest]);
        let made = Made::at(r, is_interval, end + by);
        match r.below(4) {
            0 => made,
            1 => made.starred_somewhere(r),
            _ if is_interval == self.is_interval => made.starred(self.start),
            _ => made,
        }
    }
}
