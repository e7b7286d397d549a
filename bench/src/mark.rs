//! mark beside the tuned engine and the second evaluator, which have the filter parsed, and, where it can be said in
//! SQL, beside SQLite: with the rows loaded before the clock, and with an INSERT of each instance inside it.

use crate::clock::{compare, Contestant};
use crate::data::{Filter, Setting};
use crate::score::{cells, Score};
use crate::sqlite::Rows;
use reference::Prepared;
use tuned::Program;

const PEERS: [&str; 4] = [
    "mark: tuned, parsed before",
    "mark: second evaluator, parsed",
    "mark: SQLite, rows loaded before",
    "mark: SQLite, rows inserted",
];

/// The marks are cleared before each call, for every contestant.
pub fn print_head(what: &str) {
    println!("\nmark, {what}, marks cleared first: nanoseconds for each instance");
    print!("{:30}{:>10}{:>12}{:>8}{:>12}{:>8}", "filter", "engine", "tuned", "ratio", "second", "ratio");
    println!("{:>12}{:>8}{:>12}{:>8}", "SQLite", "ratio", "INSERT too", "ratio");
}

pub fn row(score: &mut Score, setting: &Setting, what: &str, filter: &Filter) {
    let each: Vec<Option<f64>> =
        times(setting, filter).iter().map(|t| t.map(|t| t / setting.instances as f64)).collect();
    let engine = each[0].unwrap();
    let name = format!("mark, {what}, {}", filter.kind);
    print!("{:30}{engine:>10.0}", filter.kind);
    for (peer, time) in PEERS.into_iter().zip(&each[1..]) {
        print!("{}", cells(time.map(|time| (time, score.add(peer, &name, engine, time)))));
    }
    println!();
}

/// Of the engine and of each peer that can say the filter; their marks have to agree.
fn times(setting: &Setting, filter: &Filter) -> Vec<Option<f64>> {
    let (query, table, run) = (filter.fql.as_bytes(), setting.table.as_slice(), setting.run.as_slice());
    let (mut program, prepared) = (Program::new(query, table).unwrap(), Prepared::new(query, table).unwrap());
    let instances = reference::mark::instances(run).unwrap();
    let [loaded, inserted] = [Rows::new(setting), Rows::new(setting)];
    loaded.insert(&instances);
    let selects = filter.sql.as_ref().and_then(|sql| Some([loaded.select(sql)?, inserted.select(sql)?]));
    let mut marks: [Vec<u8>; 5] = std::array::from_fn(|_| setting.marks());
    let [engine, tuned, second, sqlite, insert] = &mut marks;
    let mut contestants = vec![
        Contestant::new(|| fql::mark(query, table, run, cleared(engine)).unwrap().included),
        Contestant::new(|| program.mark(run, cleared(tuned)).unwrap().included),
        Contestant::new(|| mark_by_second(&prepared, run, cleared(second))),
    ];
    if let Some([select, after_insert]) = &selects {
        contestants.push(Contestant::new(|| select.mark(cleared(sqlite))));
        let call = || {
            inserted.insert(&instances);
            after_insert.mark(cleared(insert))
        };
        contestants.push(Contestant::with_before(|| inserted.clear(), call));
    }
    let times = compare(&mut contestants);
    drop(contestants);
    for others in &marks[1..times.len()] {
        assert_eq!(&marks[0], others, "{}", filter.fql);
    }
    (0..5).map(|n| times.get(n).copied()).collect()
}

fn cleared(marks: &mut [u8]) -> &mut [u8] {
    marks.fill(0);
    marks
}

/// Marks as `fql::mark` writes them.
fn mark_by_second(filter: &Prepared, run: &[u8], marks: &mut [u8]) -> u64 {
    let instances = reference::mark::instances(run).unwrap();
    for (mark, instance) in marks.iter_mut().zip(&instances) {
        *mark = match filter.evaluate(instance) {
            Ok(answer) => u8::from(answer.included),
            Err(_) => 255,
        };
    }
    instances.len() as u64
}
