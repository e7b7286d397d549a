//! What the program prints (01, "A fan to try", last part; 02, Q-1).

use crate::check::check;
use crate::evaluate::evaluate;
use crate::mark::instances;
use crate::refusal::{require, Refusal};

pub const LENGTH_OF_RUN: usize = 65_536;

/// The program's files; one that can't be read counts as empty.
#[derive(Clone, Debug, Default)]
pub struct Files {
    pub table: Vec<u8>,
    pub query: Vec<u8>,
    pub run: Vec<u8>,
}

fn line(number: usize, files: &Files, instance: &[u8]) -> String {
    match evaluate(&files.query, &files.table, instance) {
        Ok(answer) if answer.included => format!("{number} included {}", answer.steps),
        Ok(answer) => format!("{number} excluded {}", answer.steps),
        Err(refusal) => format!("{number} failed {}", refusal.number),
    }
}

/// "Each of the last three equals the number of lines above of that word."
fn total(lines: &[String]) -> String {
    let of = |word: &str| lines.iter().filter(|line| line.split(' ').nth(1) == Some(word)).count();
    format!("total {} {} {} {}", lines.len(), of("included"), of("excluded"), of("failed"))
}

fn answered(files: &Files) -> Result<Vec<String>, Refusal> {
    check(&files.query, &files.table)?;
    require(files.run.len() <= LENGTH_OF_RUN, 40, LENGTH_OF_RUN)?;
    let instances = (1..).zip(instances(&files.run)?);
    let mut lines: Vec<String> = instances.map(|(number, instance)| line(number, files, instance)).collect();
    lines.push(total(&lines));
    Ok(lines)
}

pub fn output(files: &Files) -> String {
    let lines = answered(files).unwrap_or_else(|refusal| vec![format!("refused {} {}", refusal.number, refusal.place)]);
    lines.iter().flat_map(|line| [line, "\n"]).collect()
}
