//! A refusal in an operator's words: its number, place and cause, and what stands at the place.

use fql::{Cause, Refusal};

use crate::faulty::{in_run, in_table};
use crate::place::place;

pub fn refused(refusal: Refusal, query: &[u8], table: &[u8], run: &[u8]) -> String {
    match refusal.cause {
        // Of a number: there is nothing to show.
        Cause::Window => format!("{refusal}\n"),
        Cause::Run => format!("{refusal}\n{}", in_run(run, refusal.place as usize)),
        _ => refused_query(refusal, "query", query, table),
    }
}

/// The check's refusal of a query, which is spoken of by this name, or of the table.
pub fn refused_query(refusal: Refusal, name: &str, query: &[u8], table: &[u8]) -> String {
    let offset = refusal.place as usize;
    let details = match refusal.cause {
        Cause::Table | Cause::NameTwice => in_table(table, offset),
        _ => in_query(name, query, offset),
    };
    format!("{refusal}\n{details}")
}

fn in_query(name: &str, query: &[u8], offset: usize) -> String {
    let place = place(query, offset);
    let end = if offset == query.len() { ", the query's end" } else { "" };
    let mut out = format!("{name}, line {}, column {}{end}:\n", place.line, place.column);
    for line in place.excerpt {
        out += format!("    {line}").trim_end();
        out += "\n";
    }
    out
}
