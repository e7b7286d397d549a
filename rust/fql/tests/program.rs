//! The program, run in folders of its own, against stored output and against the second evaluator's.

use std::fs::{self, Permissions};
use std::os::unix::fs::{symlink, PermissionsExt};
use std::os::unix::process::CommandExt;
use std::path::{Path, PathBuf};
use std::process::Command;

use reference::cases::call;
use reference::cases::run::random;
use reference::examples::programs;
use reference::examples::setting::sample;
use reference::mark::instances;
use reference::program::{output, Files};
use reference::random::{for_each_seed, Random};

/// A folder of a test's own, empty.
fn folder(name: &str) -> PathBuf {
    let path = PathBuf::from(env!("CARGO_TARGET_TMPDIR")).join("program").join(name);
    let _ = fs::remove_dir_all(&path);
    fs::create_dir_all(&path).unwrap();
    path
}

fn program_path() -> &'static Path {
    let path = Path::new(concat!(env!("CARGO_MANIFEST_DIR"), "/../../crates/fql/out/fql"));
    assert!(path.exists(), "the program is missing: it has to be built as {} before this test", path.display());
    path
}

/// What the program prints in a folder.
fn run(folder: &Path) -> String {
    printed(Command::new(program_path()).current_dir(folder))
}

fn printed(command: &mut Command) -> String {
    let out = command.output().unwrap();
    assert_eq!(String::from_utf8_lossy(&out.stderr), "");
    assert!(out.status.code().is_some(), "the program was ended by a signal: {}", out.status);
    String::from_utf8(out.stdout).unwrap()
}

fn write(folder: &Path, files: &Files) {
    fs::write(folder.join("table"), &files.table).unwrap();
    fs::write(folder.join("query"), &files.query).unwrap();
    fs::write(folder.join("run"), &files.run).unwrap();
}

fn sample_files() -> Files {
    Files { table: sample().table(), query: b"On = TRUE".to_vec(), run: programs::sample_run() }
}

#[test]
fn of_the_examples() {
    let folder = folder("examples");
    for e in programs::examples() {
        write(&folder, &e.files);
        let shown = call("files", &[&e.files.table[..e.files.table.len().min(200)], &e.files.query]);
        assert_eq!(run(&folder), e.expected, "{shown}");
    }
}

/// A record has at least four bytes, so no run within the limit has more lines.
#[test]
fn of_a_run_with_the_most_records() {
    let folder = folder("most");
    let files = |records: usize| Files { run: [0, 0, 0, 3].repeat(records), ..sample_files() };
    let lines: String = (1..=16_384).map(|number| format!("{number} failed 31\n")).collect();
    write(&folder, &files(16_384));
    assert_eq!(run(&folder), lines + "total 16384 0 0 16384\n");
    write(&folder, &files(16_385));
    assert_eq!(run(&folder), "refused 40 65536\n");
}

/// With these files made unreadable in some way, the rest as in the sample.
fn with(name: &str, unreadable: &[&str], make: impl Fn(&Path)) -> String {
    let folder = folder(name);
    write(&folder, &sample_files());
    for file in unreadable {
        let path = folder.join(file);
        fs::remove_file(&path).unwrap();
        make(&path);
    }
    run(&folder)
}

/// A file that can't be read counts as empty.
const UNREADABLE: [(&[&str], &str); 8] = [
    (&[], "1 included 1\n2 failed 31\ntotal 2 1 0 1\n"),
    (&["run"], "total 0 0 0 0\n"),
    (&["query"], "refused 11 0\n"),
    (&["query", "run"], "refused 11 0\n"),
    (&["table"], "refused 2 0\n"),
    (&["table", "run"], "refused 2 0\n"),
    (&["table", "query"], "refused 2 0\n"),
    (&["table", "query", "run"], "refused 2 0\n"),
];

#[test]
fn of_missing_files() {
    for (files, expected) in UNREADABLE {
        assert_eq!(with("missing", files, |_| {}), expected, "without {files:?}");
    }
}

#[test]
fn of_empty_files() {
    for (files, expected) in UNREADABLE {
        assert_eq!(with("empty", files, |path| fs::write(path, "").unwrap()), expected, "{files:?} empty");
    }
}

#[test]
fn of_folders_in_place_of_files() {
    for (files, expected) in UNREADABLE {
        assert_eq!(with("folders", files, |path| fs::create_dir(path).unwrap()), expected, "folders {files:?}");
    }
}

/// Nobody can open a link to itself.
#[test]
fn of_links_to_themselves() {
    for (files, expected) in UNREADABLE {
        assert_eq!(with("links", files, |path| symlink(path, path).unwrap()), expected, "links {files:?}");
    }
}

/// Root may read every file, so it runs the program as another user, from a folder that any user can enter.
#[test]
fn of_files_without_permission() {
    const NOBODY: u32 = 65_534;
    let folder = std::env::temp_dir().join(format!("fql-program-{}", std::process::id()));
    fs::create_dir_all(&folder).unwrap();
    fs::set_permissions(&folder, Permissions::from_mode(0o755)).unwrap();
    let program = folder.join("fql");
    // Copied by another process: a program that this one has open for writing while it forks can't be run.
    assert!(Command::new("cp").arg(program_path()).arg(&program).status().unwrap().success());
    for (files, expected) in UNREADABLE {
        write(&folder, &sample_files());
        let forbid = |file: &&str| fs::set_permissions(folder.join(file), Permissions::from_mode(0o000)).unwrap();
        files.iter().for_each(forbid);
        let mut command = Command::new(&program);
        if files.iter().any(|file| fs::read(folder.join(file)).is_ok()) {
            command.uid(NOBODY);
        }
        assert_eq!(printed(command.current_dir(&folder)), expected, "without permission for {files:?}");
        for file in ["table", "query", "run"] {
            fs::remove_file(folder.join(file)).unwrap();
        }
    }
    fs::remove_dir_all(&folder).unwrap();
}

/// The printed text by itself, as a person adds it up: one line of a refused call, or totals that are those of the lines
/// above and of the run's records.
fn hold_to_totals(printed: &str, run: &[u8]) {
    let lines: Vec<Vec<&str>> = printed.lines().map(|line| line.split(' ').collect()).collect();
    if lines[0][0] == "refused" {
        assert!(lines.len() == 1 && lines[0].len() == 3, "{printed}");
        return;
    }
    let (last, above) = lines.split_last().unwrap();
    let of = |word: &str| above.iter().filter(|line| line[1] == word).count();
    let words = [of("included"), of("excluded"), of("failed")];
    let numbers: Vec<usize> = last[1..].iter().map(|number| number.parse().unwrap()).collect();
    assert_eq!(last[0], "total", "{printed}");
    assert_eq!(numbers[1..], words, "{printed}");
    assert_eq!(numbers[0], words.iter().sum(), "{printed}");
    assert_eq!(numbers[0], instances(run).unwrap().len(), "{printed}");
}

fn compare(r: &mut Random) {
    let folder = folder("random");
    let mut all = String::new();
    let mut mixed = 0;
    for _ in 0..400 {
        let case = random(r);
        let files = Files { table: case.table, query: case.query, run: case.run };
        write(&folder, &files);
        let printed = run(&folder);
        assert_eq!(printed, output(&files), "{}", call("files", &[&files.table, &files.query, &files.run]));
        hold_to_totals(&printed, &files.run);
        mixed += usize::from(["included", "excluded", "failed"].iter().all(|word| printed.contains(word)));
        all += &printed;
    }
    for word in ["included", "excluded", "failed", "refused 2 ", "refused 11 ", "refused 40 ", "total 0 0 0 0"] {
        let n = all.matches(word).count();
        println!("{n} times {word}");
        assert!(n >= 5, "only {n} times {word}");
    }
    println!("{mixed} runs with all three words");
    assert!(mixed >= 5, "only {mixed} runs with all three words");
}

#[test]
fn of_random_files() {
    for_each_seed(compare);
}
