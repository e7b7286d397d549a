//! The folders under examples/: their files are those of their text, and the program prints what is stored.

use std::fs;
use std::path::{Path, PathBuf};
use std::process::Command;

const ROOT: &str = concat!(env!("CARGO_MANIFEST_DIR"), "/../..");

fn folders() -> Vec<PathBuf> {
    let entries = fs::read_dir(Path::new(ROOT).join("examples")).unwrap();
    let folders: Vec<PathBuf> = entries.map(|entry| entry.unwrap().path()).filter(|path| path.is_dir()).collect();
    assert!(folders.len() >= 4, "{folders:?}");
    folders
}

fn file(folder: &Path, name: &str) -> Vec<u8> {
    fs::read(folder.join(name)).unwrap_or_else(|e| panic!("{}/{name}: {e}", folder.display()))
}

#[test]
fn are_made_from_their_text() {
    for folder in folders() {
        let files =
            fqlrec::read(&file(&folder, "records.txt")).unwrap_or_else(|e| panic!("{}: {e:?}", folder.display()));
        assert_eq!(files.table, file(&folder, "table"), "{}", folder.display());
        assert_eq!(files.run, file(&folder, "run"), "{}", folder.display());
    }
}

#[test]
fn print_what_is_stored() {
    let program = Path::new(ROOT).join("crates/fql/out/fql");
    assert!(program.exists(), "the program is missing: it has to be built as {}", program.display());
    for folder in folders() {
        let out = Command::new(fs::canonicalize(&program).unwrap()).current_dir(&folder).output().unwrap();
        assert_eq!(out.stdout, file(&folder, "expected"), "{}", folder.display());
    }
}

#[test]
fn are_answered_alike_by_the_second_evaluator() {
    for folder in folders() {
        let [table, query, run] = ["table", "query", "run"].map(|name| file(&folder, name));
        let printed = reference::program::output(&reference::program::Files { table, query, run });
        assert_eq!(printed.into_bytes(), file(&folder, "expected"), "{}", folder.display());
    }
}
