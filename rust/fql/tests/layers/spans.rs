//! The ends of datetimes with unknown digits, beside a calendar that counts: at each end, and one microsecond past it.

use std::cmp::Ordering;

use fql::types::DATETIME;

use crate::ask::{hold_to_orders, table};
use crate::calendar::{Date, DAY, DAYS, HOUR, MINUTE, MOST_DAYS};
use crate::made::Made;
use crate::seen::Seen;

const YEARS: [i64; 6] = [0, 1900, 2000, 2004, 2005, 9999];
const OFFSETS: [i64; 5] = [0, 60, -1, 999, -999];

/// Known datetimes at the ends of a span and one microsecond past them, and how the span stands to each. Past the first
/// and the last moment of all there may be none.
fn at_ends(span: &Made) -> Vec<(Made, Option<Ordering>)> {
    let known = |microseconds: i64| match span.is_interval {
        true => Made::interval(microseconds),
        false => Made::at_some_offset(microseconds, &[]),
    };
    let ends = [
        (known(span.lowest - 1), Some(Ordering::Greater)),
        (known(span.lowest), None),
        (known(span.highest), None),
        (known(span.highest + 1), Some(Ordering::Less)),
    ];
    ends.into_iter().filter_map(|(end, order)| Some((end?, order))).collect()
}

/// Holds each span to its ends and itself, each of the two as a value and as a literal. How many datetimes at ends and
/// past them there are.
fn hold(spans: &[Made]) -> usize {
    let (single, double) = (table(&[DATETIME]), table(&[DATETIME, DATETIME]));
    let (mut pairs, mut orders) = (Vec::new(), Vec::new());
    for span in spans {
        let mut others = at_ends(span);
        others.push((span.clone(), Some(Ordering::Equal)));
        let values: Vec<Vec<u8>> = others.iter().map(|(other, _)| other.record()).collect();
        let literal = format!("'{}'", span.text);
        hold_to_orders("A", &literal, &single, &values, |n| others[n].1.map(Ordering::reverse));
        for (other, order) in others {
            hold_to_orders("A", &format!("'{}'", other.text), &single, &[span.record()], |_| order);
            pairs.push([span.record(), other.record()].concat());
            orders.push(order);
        }
    }
    hold_to_orders("A", "B", &double, &pairs, |n| orders[n]);
    hold_to_orders("B", "A", &double, &pairs, |n| orders[n].map(Ordering::reverse));
    pairs.len() - spans.len()
}

/// Timestamps at some time of each of these days, at each offset, with unknown digits from this place on.
fn of_days(days: impl Iterator<Item = i64>, of_day: i64, start: usize) -> Vec<Made> {
    let at =
        |day: i64, offset: i64| Made::timestamp(day * DAY + of_day - offset * MINUTE, offset).unwrap().starred(start);
    days.flat_map(|day| OFFSETS.map(|offset| at(day, offset))).collect()
}

/// The days that keep a rule, by their numbers.
fn days(rule: impl Fn(&Date) -> bool) -> impl Iterator<Item = i64> {
    (0..).zip(DAYS.iter()).filter(move |(_, date)| rule(date)).map(|(n, _)| n)
}

#[test]
fn of_years_months_and_days() {
    let is_chosen = |date: &Date| YEARS.contains(&date.year);
    let years = of_days(days(|date| is_chosen(date) && (date.month, date.day) == (7, 15)), 5 * HOUR, 4);
    let months = of_days(days(|date| is_chosen(date) && date.day == 28), DAY - 1, 6);
    let each_day = of_days(days(is_chosen), HOUR, 8);
    assert_eq!([years.len(), months.len(), each_day.len()], [6 * 5, 72 * 5, (3 * 366 + 3 * 365) * 5]);
    // Year 0 at 999 and year 9999 at -999 have none past one end.
    for spans in [years, months, each_day] {
        assert_eq!(hold(&spans), 4 * spans.len() - 2);
    }
}

/// The ends of the calendar's months, written out.
#[test]
fn of_months_as_texts() {
    let last = |year: i64, month: i64| match month {
        2 if [0, 2000, 2004].contains(&year) => 29,
        2 => 28,
        4 | 6 | 9 | 11 => 30,
        _ => 31,
    };
    for (year, month) in YEARS.into_iter().flat_map(|year| (1..=12).map(move |month| (year, month))) {
        let unknown = format!("{year:04}{month:02}********.******+000");
        let first = format!("{year:04}{month:02}01000000.000000+000");
        let end = format!("{year:04}{month:02}{:02}235959.999999+000", last(year, month));
        let span = days(|date| (date.year, date.month, date.day) == (year, month, 1)).next().unwrap();
        let span = Made::timestamp(span * DAY, 0).unwrap().starred(6);
        let ends: Vec<String> =
            at_ends(&span).into_iter().filter(|(_, order)| order.is_none()).map(|e| e.0.text).collect();
        assert_eq!((span.text, ends), (unknown, vec![first, end]));
    }
}

/// Every hour of a day, every minute of an hour, every second of a minute, and digits of a microsecond.
#[test]
fn of_times_of_a_day() {
    let ends_of_february = || days(|date| YEARS.contains(&date.year) && (date.month, date.next().month) == (2, 3));
    let mut spans = Vec::new();
    for n in 0..24 {
        spans.extend(of_days(ends_of_february(), n * HOUR + 59 * MINUTE, 10));
    }
    for n in 0..60 {
        spans.extend(of_days(ends_of_february(), 23 * HOUR + n * MINUTE + 1, 12));
        spans.extend(of_days(ends_of_february(), n * 1_000_000, 15));
    }
    for (start, microsecond) in
        (16..=20).flat_map(|start| [0, 1, 123_456, 499_999, 500_000, 999_999].map(|n| (start, n)))
    {
        spans.extend(of_days(ends_of_february(), DAY - 1_000_000 + microsecond, start));
    }
    assert_eq!(spans.len(), (24 + 60 + 60 + 5 * 6) * 6 * 5);
    assert_eq!(hold(&spans), 4 * spans.len());
}

/// All years, at every offset. Those at -999 and at 999 have no timestamp past one of their ends.
#[test]
fn of_all_timestamps() {
    let spans: Vec<Made> = (-999..=999).map(|offset| Made::timestamp(DAY, offset).unwrap().starred(0)).collect();
    assert_eq!(hold(&spans), 4 * 1_999 - 2);
}

/// No interval is past the ends of all of them.
#[test]
fn of_intervals() {
    let ends = |span: &Made| 4 - usize::from(span.lowest == 0) - usize::from(span.highest == (MOST_DAYS + 1) * DAY - 1);
    for day in [0, 1, 9, 10, 365, 20_050_229, MOST_DAYS - 1, MOST_DAYS] {
        for of_day in [0, 1, 9, HOUR - 1, HOUR, 11 * HOUR + 22 * MINUTE + 33_123_456, DAY - 1] {
            let known = Made::interval(day * DAY + of_day).unwrap();
            let spans = [0, 8, 10, 12, 15, 16, 17, 18, 19, 20].map(|start| known.starred(start));
            assert_eq!(hold(&spans), spans.iter().map(ends).sum());
        }
    }
}

/// Units of two years that start or end with each other, at two offsets, from all years down to a microsecond; and an
/// interval's.
fn units() -> Vec<Made> {
    let is_chosen =
        |date: &Date| [2000, 2001].contains(&date.year) && [(1, 1), (2, 1), (12, 31)].contains(&(date.month, date.day));
    let moments = days(is_chosen).flat_map(|day| [day * DAY, (day + 1) * DAY - 1]);
    let known: Vec<Made> =
        moments.flat_map(|moment| [0, 60].map(|offset| Made::timestamp(moment, offset).unwrap())).collect();
    let starred = |start: usize| known.iter().map(move |made| made.starred(start));
    let mut out: Vec<Made> = [0, 4, 6, 8, 10, 12, 15, 20, 21].into_iter().flat_map(starred).collect();
    out.extend([0, 8, 10, 20, 21].map(|start| Made::interval(DAY + HOUR).unwrap().starred(start)));
    out
}

#[test]
fn of_every_two_units() {
    let all = units();
    let values: Vec<Vec<u8>> = all.iter().map(Made::record).collect();
    let mut seen = Seen::default();
    for left in &all {
        let pairs: Vec<Vec<u8>> = values.iter().map(|right| [left.record(), right.clone()].concat()).collect();
        hold_to_orders("A", "B", &table(&[DATETIME, DATETIME]), &pairs, |n| left.order(&all[n]));
        let literal = format!("'{}'", left.text);
        hold_to_orders("A", &literal, &table(&[DATETIME]), &values, |n| all[n].order(left));
        for right in &all {
            let has_one_end = (left.lowest == right.lowest) != (left.highest == right.highest);
            seen.add(match left.order(right) {
                None if left.is_interval == right.is_interval && has_one_end => "undecided, with one end in common",
                None => "undecided",
                Some(Ordering::Equal) => "equal",
                Some(_) => "in order",
            });
        }
    }
    seen.assert_at_least(&[
        ("undecided, with one end in common", 1_000),
        ("undecided", 1_000),
        ("equal", 700),
        ("in order", 10_000),
    ]);
}
