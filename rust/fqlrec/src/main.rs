//! The record tool: tables and runs as text and back, refusals explained, runs watched, and queries joined.

use std::fs;
use std::io::{stdout, IsTerminal, Write};
use std::path::Path;
use std::process::ExitCode;

use fqlrec::{explain, join, read, show, watch, Explanation, Files};

const USAGE: &str = "\
usage: fqlrec write FILE FOLDER           write FOLDER/table and FOLDER/run from the text in FILE
       fqlrec show FOLDER                 print FOLDER/table and FOLDER/run as text
       fqlrec explain FOLDER              tell whether FOLDER/query is accepted and which properties it names, or
                                          where and why not
       fqlrec watch FOLDER WINDOW NEED    print 1 for each instance of FOLDER/run where at least NEED of the last
                                          WINDOW, up to and with it, are included by FOLDER/query, else 0
       fqlrec join FOLDER FIRST SECOND    print one query for FOLDER/table that includes what the queries in the files
                                          FIRST and SECOND both include

The exit status is 0, 1 if a query, table or run, WINDOW or NEED is refused, 2 if a file or an argument is wrong.
";

fn main() -> ExitCode {
    let arguments: Vec<String> = std::env::args().skip(1).collect();
    let arguments: Vec<&str> = arguments.iter().map(String::as_str).collect();
    let result = match arguments[..] {
        ["write", file, folder] => write_files(file, Path::new(folder)).map(|()| true),
        ["show", folder] => print_text(Path::new(folder)).map(|()| true),
        ["explain", folder] => print_explanation(Path::new(folder), explain),
        ["watch", folder, window, need] => print_watch(Path::new(folder), window, need),
        ["join", folder, first, second] => print_joined(Path::new(folder), first, second),
        _ => Err(USAGE.trim_end().to_owned()),
    };
    match result {
        Ok(true) => ExitCode::SUCCESS,
        Ok(false) => ExitCode::from(1),
        Err(what) => {
            eprintln!("{what}");
            ExitCode::from(2)
        }
    }
}

fn load(path: &Path) -> Result<Vec<u8>, String> {
    fs::read(path).map_err(|e| format!("{}: {e}", path.display()))
}

fn store(path: &Path, bytes: &[u8]) -> Result<(), String> {
    fs::write(path, bytes).map_err(|e| format!("{}: {e}", path.display()))
}

fn print(text: &str) -> Result<(), String> {
    stdout().write_all(text.as_bytes()).map_err(|e| format!("standard output: {e}"))
}

fn write_files(file: &str, folder: &Path) -> Result<(), String> {
    let files = read(&load(Path::new(file))?).map_err(|problem| format!("{file}:{problem}"))?;
    fs::create_dir_all(folder).map_err(|e| format!("{}: {e}", folder.display()))?;
    store(&folder.join("table"), &files.table)?;
    store(&folder.join("run"), &files.run)
}

fn print_text(folder: &Path) -> Result<(), String> {
    print(&show(&Files { table: load(&folder.join("table"))?, run: load(&folder.join("run"))? }))
}

/// What a function of query, table and run says; whether all is accepted.
fn print_explanation(folder: &Path, says: impl Fn(&[u8], &[u8], &[u8]) -> Explanation) -> Result<bool, String> {
    let [query, table, run] = ["query", "table", "run"].map(|name| load(&folder.join(name)));
    let explanation = says(&query?, &table?, &run?);
    print(&explanation.text)?;
    Ok(explanation.accepted)
}

/// Any number goes to the engine, which knows the ranges.
fn print_watch(folder: &Path, window: &str, need: &str) -> Result<bool, String> {
    let (window, need) = (number("WINDOW", window)?, number("NEED", need)?);
    print_explanation(folder, |query, table, run| watch(query, table, run, window, need))
}

/// An argument in decimal digits; a sign, which `parse` would take, is none.
fn number(name: &str, argument: &str) -> Result<u64, String> {
    let digits = argument.bytes().all(|byte| byte.is_ascii_digit());
    match argument.parse() {
        Ok(number) if digits => Ok(number),
        _ => Err(format!("{name}: a decimal number from 0 to {} is needed here, not `{argument}`", u64::MAX)),
    }
}

/// The text goes out as it is, so that it can be kept as a query; on a terminal its line is ended. A refusal is no
/// query and goes to standard error.
fn print_joined(folder: &Path, first: &str, second: &str) -> Result<bool, String> {
    let [first, second] = [first, second].map(|file| load(Path::new(file)));
    match join(&first?, &second?, &load(&folder.join("table"))?) {
        Ok(text) => {
            let end = if stdout().is_terminal() { "\n" } else { "" };
            print(&(text + end))?;
            Ok(true)
        }
        Err(refused) => {
            eprint!("{refused}");
            Ok(false)
        }
    }
}
