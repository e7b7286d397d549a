//! Datetimes in values and in literals: which there are, and in what order they stand, beside a calendar that counts.

use std::cmp::Ordering;

use fql::record::write;
use fql::types::DATETIME;
use reference::datetime::parse;
use reference::random::{for_each_seed, Random};

use crate::ask::{hold_to_orders, marks, refusal, table};
use crate::calendar::{timestamp, Date, DAY, DAYS};
use crate::made::Made;
use crate::quoted::quoted;
use crate::seen::Seen;

/// Holds the rule that tells datetimes from other texts, in values; an instance of another text doesn't conform.
pub fn hold_in_values(texts: &[Vec<u8>], is_datetime: impl Fn(&[u8]) -> bool) {
    let instances: Vec<Vec<u8>> = texts.iter().map(|text| write(DATETIME, text)).collect();
    for (mark, text) in marks("A = NULL", &table(&[DATETIME]), &instances).into_iter().zip(texts) {
        let expected = if is_datetime(text) { fql::EXCLUDED } else { fql::FAILED };
        assert_eq!(mark, expected, "{}", text.escape_ascii());
    }
}

/// The same rule for a literal, which is 25 otherwise.
pub fn hold_in_literal(literal: &str, is_datetime: bool) {
    let found = refusal(format!("A = {literal}").as_bytes(), &table(&[DATETIME]));
    assert_eq!(found, (!is_datetime).then_some((25, 4)), "{literal}");
}

#[test]
fn which_days_there_are() {
    let mut seen = Seen::default();
    for year in (0..=401).chain([1899, 1900, 1999, 2000, 2004, 2005, 2100, 9996, 9998, 9999]) {
        let dates: Vec<Date> =
            (0..=13).flat_map(|month| [0, 1, 27, 28, 29, 30, 31, 32].map(|day| Date { year, month, day })).collect();
        let texts: Vec<String> = dates.iter().map(|date| timestamp(*date, 45_296_654_321, -60)).collect();
        let exists = |text: &[u8]| dates[texts.iter().position(|t| t.as_bytes() == text).unwrap()].exists();
        hold_in_values(&texts.iter().map(|text| text.clone().into_bytes()).collect::<Vec<_>>(), exists);
        for (text, date) in texts.iter().zip(&dates) {
            hold_in_literal(&format!("'{text}'"), date.exists());
            seen.add(if date.exists() { "days" } else { "no days" });
        }
    }
    seen.assert_at_least(&[("days", 25_000), ("no days", 18_000)]);
}

/// A minute before the end of a day, a minute west of UTC, is the start of the next day in UTC. So each day is one day
/// after the one before it.
#[test]
fn each_day_follows_the_one_before() {
    let table = table(&[DATETIME, DATETIME, DATETIME]);
    let near_an_end = |date: &Date| (date.month == 12 && date.day == 31) || (date.month == 2 && date.day >= 28);
    let chosen: Vec<Date> = DAYS.iter().copied().filter(|date| date.year <= 401 || near_an_end(date)).collect();
    assert_eq!(DAYS.len(), 25 * 146_097);
    let instance = |date: &Date| {
        let next = Some(date.next()).filter(|next| next.year <= 9_999)?;
        let texts = [timestamp(*date, DAY - 60_000_000, -1), timestamp(next, 0, 0), timestamp(next, 1, 0)];
        Some(texts.map(|text| write(DATETIME, text.as_bytes())).concat())
    };
    let instances: Vec<Vec<u8>> = chosen.iter().filter_map(instance).collect();
    assert!(instances.len() > 165_000);
    hold_to_orders("A", "B", &table, &instances, |_| Some(Ordering::Equal));
    hold_to_orders("C", "A", &table, &instances, |_| Some(Ordering::Greater));
}

/// What two datetimes are an example of.
fn sort(a: &Made, b: &Made) -> &'static str {
    let spans = usize::from(a.is_span()) + usize::from(b.is_span());
    match (spans, a.order(b)) {
        _ if a.is_interval != b.is_interval => "timestamp beside interval",
        (0, Some(Ordering::Equal)) if a.text == b.text => "equal, written alike",
        (0, Some(Ordering::Equal)) => "equal, written otherwise",
        (0, _) => "in order",
        (1, None) => "span and moment, undecided",
        (1, Some(_)) => "span and moment, in order",
        (_, None) => "two spans, undecided",
        (_, Some(Ordering::Equal)) if a.text == b.text => "equal spans, written alike",
        (_, Some(Ordering::Equal)) => "equal spans, written otherwise",
        (_, Some(_)) => "two spans, in order",
    }
}

fn orders(r: &mut Random) {
    let (pair, single) = (table(&[DATETIME, DATETIME]), table(&[DATETIME]));
    let mut seen = Seen::default();
    for _ in 0..6_000 {
        let first = Made::random(r);
        let others: Vec<Made> = (0..8).map(|_| if r.chance(8) { Made::random(r) } else { first.near(r) }).collect();
        let values: Vec<Vec<u8>> = others.iter().map(Made::record).collect();
        let pairs: Vec<Vec<u8>> = values.iter().map(|other| [first.record(), other.clone()].concat()).collect();
        let literal = quoted(r, &first.text);
        hold_to_orders("A", "B", &pair, &pairs, |n| first.order(&others[n]));
        hold_to_orders("A", &literal, &single, &values, |n| others[n].order(&first));
        for other in &others {
            seen.add(sort(&first, other));
            if first.lowest < 0 || other.lowest < 0 {
                seen.add("before year 0 in UTC");
            }
        }
    }
    seen.assert_at_least(&[
        ("timestamp beside interval", 3_000),
        ("equal, written alike", 1_000),
        ("equal, written otherwise", 2_000),
        ("in order", 5_000),
        ("span and moment, undecided", 3_000),
        ("span and moment, in order", 3_000),
        ("two spans, undecided", 3_000),
        ("two spans, in order", 3_000),
        ("equal spans, written alike", 1_000),
        ("equal spans, written otherwise", 1_000),
        ("before year 0 in UTC", 1_000),
    ]);
}

#[test]
fn order_of_moments_and_intervals() {
    for_each_seed(orders);
}

/// The fields of a datetime, some of them out of range, and now and then stars from any place on.
fn random_text(r: &mut Random) -> String {
    let date = format!("{:04}{:02}{:02}", r.below(10_000), r.below(14), r.below(33));
    let clock = format!("{:02}{:02}{:02}.{:06}", r.below(25), r.below(61), r.below(61), r.below(1_000_000));
    let zone = format!("{}{:03}", r.pick(&['+', '-', ':']), r.pick(&[0, 0, 1, 60, 999]));
    let known = if r.chance(3) { r.below(21) } else { 21 };
    let star = |(n, c)| if n >= known && c != '.' { '*' } else { c };
    (date + &clock).chars().enumerate().map(star).collect::<String>() + &zone
}

fn texts(r: &mut Random) {
    let is_datetime = |text: &[u8]| parse(text).is_some();
    let mut seen = Seen::default();
    let mut texts: Vec<Vec<u8>> = Vec::new();
    for _ in 0..120_000 {
        let text = if r.chance(3) { Made::random(r).text } else { random_text(r) };
        let text = if r.chance(3) { r.damage(text.as_bytes()) } else { text.into_bytes() };
        if let Ok(text) = std::str::from_utf8(&text) {
            hold_in_literal(&quoted(r, text), is_datetime(text.as_bytes()));
        }
        seen.add(match (is_datetime(&text), text.contains(&b'*')) {
            (true, false) => "datetimes",
            (true, true) => "datetimes with stars",
            (false, false) => "other texts",
            (false, true) => "other texts with stars",
        });
        texts.push(text);
    }
    hold_in_values(&texts, is_datetime);
    seen.assert_at_least(&[
        ("datetimes", 30_000),
        ("datetimes with stars", 15_000),
        ("other texts", 30_000),
        ("other texts with stars", 15_000),
    ]);
}

#[test]
fn random_and_damaged_texts() {
    for_each_seed(texts);
}
