//! Slow inputs, within the limits of a call: those known to be the slowest of their sort, and what a search finds.

mod compared;
mod input;
mod like;
mod read;
mod recipe;
mod search;
mod texts;
mod timing;

pub use input::Input;
use std::time::Duration;
use timing::microseconds;

/// The known inputs whose name holds the word.
pub fn run(word: &str) {
    print_head("slow inputs");
    let mut most = Most::default();
    for input in like::inputs().into_iter().chain(fast_to_evaluate()).filter(|input| input.name.contains(word)) {
        most.add(&input.name, print_row(&input));
    }
    most.print();
}

/// The known inputs that take no seconds on any engine.
pub fn fast_to_evaluate() -> impl Iterator<Item = Input> {
    [compared::inputs(), read::inputs()].into_iter().flatten()
}

/// What a search of so many seconds finds; the bytes of each input are left in `target/slow`.
pub fn search(seconds: u64, seed: u64) {
    print_head(&format!("slow inputs, found in {seconds} s with seed {seed}"));
    let folder = concat!(env!("CARGO_MANIFEST_DIR"), "/target/slow");
    std::fs::create_dir_all(folder).unwrap();
    for input in search::inputs(Duration::from_secs(seconds), seed) {
        print_row(&input);
        let query = String::from_utf8_lossy(&input.query);
        println!("    {}", query.chars().take(150).collect::<String>());
        let operation = input.name.split([' ', ',']).nth(2).unwrap();
        for (what, bytes) in [("query", &input.query), ("table", &input.table), ("instance", &input.instance)] {
            std::fs::write(format!("{folder}/{operation}.{what}"), bytes).unwrap();
        }
    }
}

fn print_head(what: &str) {
    println!("\n{what}: bytes, steps, and microseconds for each call, a mark being one of a run of one instance");
    print!("{:50}{:>7}{:>10}{:>10}{:>11}{:>11}", "input", "query", "instance", "steps", "check", "tuned");
    println!("{:>14}{:>12}{:>14}", "evaluate", "tuned", "mark");
}

/// The microseconds of check, evaluate and mark.
fn print_row(input: &Input) -> [f64; 3] {
    let Input { name, query, table, instance } = input;
    let (run, mut answers) = (input.run(), [(false, 0); 2]);
    let check = microseconds(|| u64::from(fql::check(query, table).is_ok()));
    let tuned_check = microseconds(|| u64::from(tuned::check(query, table).is_ok()));
    let evaluate = microseconds(|| {
        let answer = fql::evaluate(query, table, instance).unwrap_or_else(|refusal| panic!("{name}: {refusal:?}"));
        answers[0] = (answer.verdict == fql::Verdict::Included, answer.steps);
        answer.steps
    });
    let tuned_evaluate = microseconds(|| {
        let answer = tuned::evaluate(query, table, instance).unwrap();
        answers[1] = (answer.included, answer.steps);
        answer.steps
    });
    let mark = microseconds(|| fql::mark(query, table, &run, &mut [0]).unwrap().included);
    assert_eq!(answers[0], answers[1], "{name}");
    print!("{name:50}{:>7}{:>10}{:>10}{check:>11.1}{tuned_check:>11.1}", query.len(), instance.len(), answers[0].1);
    println!("{evaluate:>14.1}{tuned_evaluate:>12.1}{mark:>14.1}");
    [check, evaluate, mark]
}

/// The slowest input of each operation.
#[derive(Default)]
struct Most([(f64, String); 3]);

impl Most {
    fn add(&mut self, name: &str, times: [f64; 3]) {
        for (most, time) in self.0.iter_mut().zip(times) {
            if time > most.0 {
                *most = (time, name.into());
            }
        }
    }

    fn print(&self) {
        for (operation, (time, name)) in ["check", "evaluate", "mark"].iter().zip(&self.0) {
            println!("most of {operation}: {time:.1} microseconds, {name}");
        }
    }
}
