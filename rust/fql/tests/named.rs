//! Only the properties that a query names count: two conforming instances that hold the same records for these have the
//! same answer, verdict and steps, however else they differ; on the engine, the second evaluator and the tuned engine.

mod common;

use common::often::assert_often;
use common::pairs::{same_answer, Differences};
use common::{agree, agree_on_marks, Found};
use fql::record::{read, write, Record, CLASS, NULL};
use fql::types::{BOOLEAN, STRING};
use reference::cases::named::notion::{self, Notion};
use reference::cases::named::{
    run, with_left_out_changed, with_named_changed, with_one_changed, with_other_kinds, with_unnamed_changed, Changes,
    Naming, Pair,
};
use reference::cases::spread::{Spread, FORMS};
use reference::cases::{call, Case, Intended};
use reference::examples::named::of_accepted_queries;
use reference::kind::{ARRAY, TYPES};
use reference::random::{for_each_seed, Random};
use reference::{Answer, Refusal, Totals};

const PAIRS: usize = 40_000;
/// Of pairs whose answers have to differ often, and of runs.
const FEWER_PAIRS: usize = 10_000;

fn assert_every_kind(changes: &Changes, least: usize) {
    for kind in TYPES.iter().flat_map(|&plain| [plain, ARRAY | plain]) {
        let count = changes.kinds.get(&kind).copied().unwrap_or(0);
        assert!(count >= least, "only {count} other records for a property of kind {kind:#06x}");
    }
}

/// What came up, so that the test can't pass by trying nothing.
#[derive(Default)]
struct Seen {
    /// Where the query is accepted.
    changes: Changes,
    naming: Naming,
    spread: Spread,
}

impl Seen {
    fn add(&mut self, pair: &Pair, found: Found) {
        if found.is_ok() {
            self.changes.add(pair);
            self.naming.add(pair);
        }
        let (query, table, instance) = (pair.query.clone(), pair.table.clone(), pair.first.clone());
        self.spread.add(&Case { sort: "pair", query, table, instance, intended: Intended::Unknown }, found);
    }

    fn assert_changes(&self) {
        let c = &self.changes;
        println!("{c:?}");
        assert_every_kind(c, 4_000);
        assert_often(&[
            ("NULL before, a value after", c.from_null, 25_000),
            ("a value before, NULL after", c.to_null, 23_000),
            ("a longer record", c.longer, 50_000),
            ("a shorter record", c.shorter, 47_000),
            ("another record of the same length", c.of_the_same_length, 55_000),
            ("a named property at another place", c.moved, 19_000),
            ("instances of two lengths", c.of_two_lengths, 16_000),
            ("more further records", c.more, 8_000),
            ("fewer further records", c.fewer, 2_500),
            ("as many other further records", c.others, 350),
        ]);
    }

    fn assert_queries(&self) {
        let (n, s) = (&self.naming, &self.spread);
        println!("{n:?}\n[included, excluded]: {:?}, refused: {:?}\n{:?}", s.verdicts, s.refusals, s.forms);
        assert_often(&[
            ("all properties named", n.all, 2_500),
            ("some properties named, some not", n.some, 14_000),
            ("a property on the right", n.on_the_right, 8_000),
            ("one property on both sides", n.on_both_sides, 5_500),
            ("one property in two spellings", n.in_two_spellings, 6_000),
            ("included", s.verdicts[0], 8_500),
            ("excluded", s.verdicts[1], 8_000),
            ("refused by the check", s.refusals.values().sum(), 3_000),
        ]);
        assert_often(&FORMS.map(|form| (form, s.forms.get(form).copied().unwrap_or(0), 1_800)));
    }
}

fn unnamed(r: &mut Random) {
    let mut seen = Seen::default();
    for _ in 0..PAIRS {
        let pair = with_unnamed_changed(r);
        let found = same_answer(pair.inputs());
        seen.add(&pair, found);
    }
    seen.assert_changes();
    seen.assert_queries();
}

#[test]
fn nothing_unnamed_counts() {
    for_each_seed(unnamed);
}

/// The differences in so many pairs.
fn differences(pairs: impl Iterator<Item = Pair>) -> Differences {
    let mut out = Differences::default();
    pairs.for_each(|pair| out.add(pair.inputs()));
    out
}

/// One property has another record: that may show where the query names it, and nowhere else.
fn one(r: &mut Random) {
    let mut changes = Changes::default();
    let mut of_named = Differences::default();
    for _ in 0..PAIRS {
        let pair = with_one_changed(r);
        if pair.changed().is_subset(&pair.named) {
            of_named.add(pair.inputs());
        } else if same_answer(pair.inputs()).is_ok() {
            changes.add(&pair);
        }
    }
    println!("{changes:?}");
    assert_every_kind(&changes, 190);
    assert_often(&[
        ("NULL before, a value after", changes.from_null, 1_500),
        ("a value before, NULL after", changes.to_null, 1_300),
        ("a named property at another place", changes.moved, 5_000),
    ]);
    of_named.assert_at_least("one that is named", 1_600, 3_000);
}

#[test]
fn one_property_counts_only_if_named() {
    for_each_seed(one);
}

#[test]
fn named_properties_count() {
    for_each_seed(|r| {
        let found = differences((0..FEWER_PAIRS).map(|_| with_named_changed(r)));
        found.assert_at_least("all that are named", 1_200, 2_300);
    });
}

/// What a notion leaves out is changed, and answers with it: the first test would tell.
fn wrong_notions(r: &mut Random) {
    let notions: [(&str, Notion, usize, usize); 5] = [
        ("on the left alone", notion::on_the_left, 60, 85),
        ("in the first comparison alone", notion::in_the_first_comparison, 220, 500),
        ("in the last comparison alone", notion::in_the_last_comparison, 230, 900),
        ("without the class alone", notion::without_the_class, 400, 700),
        ("in the table's case alone", notion::in_the_same_case, 330, 500),
    ];
    for (what, notion, verdicts, steps) in notions {
        let found = differences((0..FEWER_PAIRS).map(|_| with_left_out_changed(r, notion)));
        found.assert_at_least(what, verdicts, steps);
    }
}

#[test]
fn wrong_notions_of_named_change_answers() {
    for_each_seed(wrong_notions);
}

/// NULL and an empty text, octets, reference or array have the same body, and are two records.
#[test]
fn other_kinds_change_answers() {
    let table = [write(CLASS, b"P"), write(STRING, b"Name")].concat();
    for (kind, included) in [(NULL, true), (STRING, false)] {
        assert_eq!(agree(b"Name = NULL", &table, &write(kind, &[])), Ok(Answer { included, steps: 1 }));
    }
    for_each_seed(|r| {
        let found = differences((0..FEWER_PAIRS).map(|_| with_other_kinds(r)));
        found.assert_at_least("the same bodies of other kinds", 1_000, 750);
    });
}

/// The marks of an instance at the same place are the same, 255 where both don't conform; and so are the totals.
fn runs(r: &mut Random) {
    let (mut sum, mut refused) = (Totals::default(), 0);
    for _ in 0..FEWER_PAIRS {
        let pair = run::pair(r);
        let instances = pair.conforming.len();
        let marks: Vec<u8> = (0..instances + r.below(3)).map(|_| r.byte()).collect();
        let [first, second] =
            [&pair.first, &pair.second].map(|run| agree_on_marks(&pair.query, &pair.table, run, &marks));
        let shown = || {
            let of_run = |run: &Vec<u8>| call("agree_on_marks", &[&pair.query, &pair.table, run, &marks]);
            [&pair.first, &pair.second].map(of_run).join("\n")
        };
        assert_eq!(first, second, "{}", shown());
        let (Ok(totals), left) = first else {
            refused += 1;
            continue;
        };
        let conforming: Vec<bool> = left[..instances].iter().map(|&mark| mark != fql::FAILED).collect();
        assert_eq!(conforming, pair.conforming, "{}", shown());
        sum.included += totals.included;
        sum.excluded += totals.excluded;
        sum.failed += totals.failed;
    }
    println!("{sum:?}, refused {refused}");
    let [included, excluded, failed] = [sum.included, sum.excluded, sum.failed].map(|n| n as usize);
    assert_often(&[
        ("included", included, 5_000),
        ("excluded", excluded, 5_000),
        ("failed", failed, 2_500),
        ("refused", refused, 700),
    ]);
}

#[test]
fn runs_keep_their_marks() {
    for_each_seed(runs);
}

/// The instance with NULL for each property that isn't named, and with a further record.
fn emptied(instance: &[u8], named: &[usize]) -> Vec<u8> {
    let kept = |(n, record): (usize, &Record)| match named.contains(&n) {
        true => write(record.kind, record.body),
        false => write(NULL, &[]),
    };
    let properties: Vec<u8> = read(instance).0.iter().enumerate().flat_map(kept).collect();
    [properties, write(STRING, b"further")].concat()
}

/// With NULL for all that the written-out set leaves out, the answer stays.
#[test]
fn of_the_examples() {
    for e in of_accepted_queries() {
        let other = emptied(&e.instance, &e.named);
        let [first, second] = [&e.instance, &other].map(|instance| agree(&e.query, &e.table, instance));
        assert_eq!(first, second, "{}", e.query.escape_ascii());
    }
}

/// An instance of 65,535 bytes has the answer of a short one; with one byte more it is too long.
#[test]
fn up_to_the_limit_of_an_instance() {
    let table = [write(CLASS, b"P"), write(STRING, b"Name"), write(BOOLEAN, b"On")].concat();
    let ask = |name: Vec<u8>| {
        let instance = [name, write(BOOLEAN, &[1])].concat();
        (instance.len(), agree(b"On = TRUE", &table, &instance))
    };
    let included = Ok(Answer { included: true, steps: 1 });
    assert_eq!(ask(write(NULL, &[])), (9, included));
    assert_eq!(ask(write(STRING, &[b'a'; 65_526])), (65_535, included));
    assert_eq!(ask(write(STRING, &[b'a'; 65_527])), (65_536, Err(Refusal { number: 30, place: 0 })));
}
