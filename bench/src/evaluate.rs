//! evaluate, one instance a call. The engine checks table and filter each time; the tuned engine does so in one column
//! and has them parsed in the other, as the second evaluator has.

use crate::clock::{compare, Contestant};
use crate::data::{filters, Filter, Setting};
use crate::score::{cells, Score};
use reference::Prepared;
use tuned::Program;

pub fn run(score: &mut Score, setting: &Setting, size: &str) {
    println!("\nevaluate, one {size} instance: nanoseconds for each call");
    print!("{:24}{:>12}{:>12}{:>8}", "filter", "engine", "tuned", "ratio");
    println!("{:>12}{:>8}{:>12}{:>8}", "parsed", "ratio", "second", "ratio");
    for filter in filters() {
        row(score, setting, size, &filter);
    }
}

fn row(score: &mut Score, setting: &Setting, size: &str, filter: &Filter) {
    let (query, table, instance) = (filter.fql.as_bytes(), setting.table.as_slice(), setting.instance());
    let mut program = Program::new(query, table).unwrap();
    let prepared = Prepared::new(query, table).unwrap();
    let answer = fql::evaluate(query, table, instance).unwrap();
    assert_eq!(answer.steps, program.evaluate(instance).unwrap().steps, "{}", filter.fql);
    assert_eq!(answer.steps, prepared.evaluate(instance).unwrap().steps, "{}", filter.fql);
    let times = compare(&mut [
        Contestant::new(|| fql::evaluate(query, table, instance).unwrap().steps),
        Contestant::new(|| tuned::evaluate(query, table, instance).unwrap().steps),
        Contestant::new(|| program.evaluate(instance).unwrap().steps),
        Contestant::new(|| prepared.evaluate(instance).unwrap().steps),
    ]);
    let name = format!("evaluate, {size}, {}", filter.kind);
    let peers = ["evaluate: tuned", "evaluate: tuned, parsed before", "evaluate: second evaluator, parsed"];
    print!("{:24}{:>12.0}", filter.kind, times[0]);
    for (peer, &time) in peers.into_iter().zip(&times[1..]) {
        print!("{}", cells(Some((time, score.add(peer, &name, times[0], time)))));
    }
    println!();
}
