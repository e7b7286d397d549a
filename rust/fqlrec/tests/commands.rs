//! The tool's commands, run as an operator runs them.

use std::fs;
use std::path::PathBuf;
use std::process::Command;

const TEXT: &str = "\
class P
    On  boolean
instance
    On = TRUE
instance
";

/// A folder of a test's own, empty.
fn folder(name: &str) -> PathBuf {
    let path = PathBuf::from(env!("CARGO_TARGET_TMPDIR")).join(name);
    let _ = fs::remove_dir_all(&path);
    fs::create_dir_all(&path).unwrap();
    path
}

/// Exit status, standard output and standard error.
fn run(folder: &PathBuf, arguments: &[&str]) -> (i32, String, String) {
    let out = Command::new(env!("CARGO_BIN_EXE_fqlrec")).args(arguments).current_dir(folder).output().unwrap();
    let text = |bytes| String::from_utf8(bytes).unwrap();
    (out.status.code().unwrap(), text(out.stdout), text(out.stderr))
}

#[test]
fn write_and_show() {
    let folder = folder("write_and_show");
    fs::write(folder.join("text"), TEXT).unwrap();
    assert_eq!(run(&folder, &["write", "text", "new/files"]), (0, String::new(), String::new()));
    assert_eq!(fs::read(folder.join("new/files/table")).unwrap(), b"\x01\0\0\x02P\x02\0\x01\0On");
    assert_eq!(fs::read(folder.join("new/files/run")).unwrap(), b"\x05\0\0\x03\x01\0\x01\0\x01\0\0\0\x03");
    assert_eq!(run(&folder, &["show", "new/files"]), (0, TEXT.to_owned(), String::new()));
}

#[test]
fn a_problem_in_the_text() {
    let folder = folder("a_problem_in_the_text");
    fs::write(folder.join("text"), "class P\n    On  bool\n").unwrap();
    let (status, out, error) = run(&folder, &["write", "text", "files"]);
    assert_eq!((status, out.as_str()), (2, ""));
    assert!(error.starts_with("text:2:9: a type is needed here: boolean, "), "{error}");
    assert!(!folder.join("files").exists());
}

#[test]
fn explain() {
    let folder = folder("explain");
    fs::write(folder.join("text"), TEXT).unwrap();
    run(&folder, &["write", "text", "."]);
    fs::write(folder.join("query"), "On = TRUE").unwrap();
    let (status, out, error) = run(&folder, &["explain", "."]);
    assert_eq!((status, error.as_str()), (0, ""));
    let expected = "accepted\nnames On\n1 included, 0 excluded, 1 failed\ninstance 2, at byte 9 of the run: ";
    assert!(out.starts_with(expected), "{out}");

    fs::write(folder.join("query"), "On = TRUE\nOR Of = TRUE").unwrap();
    let (status, out, error) = run(&folder, &["explain", "."]);
    assert_eq!((status, error.as_str()), (1, ""));
    let expected =
        "refused 20 at 13: the table has no such property\nquery, line 2, column 4:\n    OR Of = TRUE\n       ^\n";
    assert_eq!(out, expected);
}

/// A folder with a run of which the first, third and fourth instance are included, and the fifth fails.
fn watched(name: &str) -> PathBuf {
    let folder = folder(name);
    let instance = |flag: &str| format!("instance\n    On = {flag}\n");
    let instances = ["TRUE", "FALSE", "TRUE", "TRUE"].map(instance).concat();
    let text = format!("class P\n    On  boolean\n{instances}instance\n{}", instance("FALSE"));
    fs::write(folder.join("text"), text).unwrap();
    run(&folder, &["write", "text", "."]);
    fs::write(folder.join("query"), "On = TRUE").unwrap();
    folder
}

#[test]
fn watch() {
    let folder = watched("watch");
    for (window, need, expected) in [
        ("3", "2", "1 0\n2 0\n3 1\n4 1\n5 1\n6 0\n3 ones, 3 zeros\n"),
        ("1", "1", "1 1\n2 0\n3 1\n4 1\n5 0\n6 0\n3 ones, 3 zeros\n"),
        ("64", "1", "1 1\n2 1\n3 1\n4 1\n5 1\n6 1\n6 ones, 0 zeros\n"),
        ("064", "0064", "1 0\n2 0\n3 0\n4 0\n5 0\n6 0\n0 ones, 6 zeros\n"),
    ] {
        let found = run(&folder, &["watch", ".", window, need]);
        assert_eq!(found, (0, expected.to_owned(), String::new()), "{need} of {window}");
    }
    fs::write(folder.join("run"), "").unwrap();
    assert_eq!(run(&folder, &["watch", ".", "3", "2"]), (0, "0 ones, 0 zeros\n".to_owned(), String::new()));
}

/// The program takes 65,536 bytes of a run; a watch takes all.
#[test]
fn watch_a_long_run() {
    let folder = watched("watch_a_long_run");
    let records = fs::read(folder.join("run")).unwrap();
    let long = records.repeat(1 + 65_536 / records.len());
    fs::write(folder.join("run"), &long).unwrap();
    let (status, out, error) = run(&folder, &["watch", ".", "1", "1"]);
    assert_eq!((status, error.as_str()), (0, ""));
    let runs = long.len() / records.len();
    assert!(out.ends_with(&format!("\n{} 0\n{} ones, {} zeros\n", 6 * runs, 3 * runs, 3 * runs)), "{out}");

    fs::write(folder.join("run"), [&long[..], &[9]].concat()).unwrap();
    let (status, out, _) = run(&folder, &["watch", ".", "1", "1"]);
    let (number, place) = (6 * runs + 1, long.len());
    let expected = format!(
        "refused 40 at {place}: the run has no whole record of kind 0x0300 here\nrun, record {number}, at byte {place}:\n    \
         bytes 09 (length and kind are 4 bytes, 1 present)\n"
    );
    assert_eq!((status, out), (1, expected));
}

/// Window and need come first, and then what explain says.
#[test]
fn a_refused_watch() {
    let folder = watched("a_refused_watch");
    let out_of_range = "refused 42 at 0: the window is not from 1 to 64, or the need not from 1 to the window\n";
    let refused = |window, need| {
        let (status, out, error) = run(&folder, &["watch", ".", window, need]);
        assert_eq!((status, error.as_str()), (1, ""), "{need} of {window}");
        out
    };
    let most = u64::MAX.to_string();
    let all_out_of_range = || {
        for (window, need) in [("0", "0"), ("0", "5"), ("65", "1"), ("3", "0"), ("3", "4"), (&most, &most)] {
            assert_eq!(refused(window, need), out_of_range, "{need} of {window}");
        }
    };
    all_out_of_range();
    for (file, bytes) in [("run", &b"\x05\0\0\x03\x01"[..]), ("query", b"On = TRUE\nOR Of = TRUE"), ("table", b"")] {
        fs::write(folder.join(file), bytes).unwrap();
        all_out_of_range();
        let (status, explained, _) = run(&folder, &["explain", "."]);
        assert_eq!((status, refused("3", "2")), (1, explained), "{file}");
    }
}

#[test]
fn windows_and_needs_that_are_no_numbers() {
    let folder = watched("windows_and_needs_that_are_no_numbers");
    for text in ["", "x", "-1", "+3", " 3", "3 ", "3.0", "0x3", "1e1", "1_0", "18446744073709551616", "\u{664}"] {
        for (name, window, need) in [("WINDOW", text, "2"), ("WINDOW", text, "x"), ("NEED", "3", text)] {
            let (status, out, error) = run(&folder, &["watch", ".", window, need]);
            assert_eq!((status, out.as_str()), (2, ""));
            let expected = "a decimal number from 0 to 18446744073709551615 is needed here";
            assert_eq!(error, format!("{name}: {expected}, not `{text}`\n"));
        }
    }
}

/// A folder with a table of one flag and a text, and the two queries in files of it.
fn joined(name: &str, first: &str, second: &str) -> PathBuf {
    let folder = folder(name);
    fs::write(folder.join("text"), "class P\n    On    boolean\n    Name  string\n").unwrap();
    run(&folder, &["write", "text", "."]);
    fs::write(folder.join("first"), first).unwrap();
    fs::write(folder.join("second"), second).unwrap();
    folder
}

#[test]
fn join() {
    let folder = joined("join", "On = TRUE OR On = NULL\n", "( Name = 'a' )\r\nor (Name = '\u{e9})')\n");
    let term = |name: &str| format!("(On = TRUE OR On = NULL) AND (Name = '{name}')");
    let expected = format!("{} OR {}", term("a"), term("\u{e9})"));
    assert_eq!(run(&folder, &["join", ".", "first", "second"]), (0, expected.clone(), String::new()));

    // What is printed is a query.
    fs::write(folder.join("query"), &expected).unwrap();
    let (status, out, _) = run(&folder, &["explain", "."]);
    assert_eq!((status, out.as_str()), (0, "accepted\nnames On, Name\n0 included, 0 excluded, 0 failed\n"));
    let expected = format!("({}) AND ({})", "On = TRUE OR On = NULL", "On = TRUE OR On = NULL");
    assert_eq!(run(&folder, &["join", ".", "first", "first"]), (0, expected, String::new()));
}

/// Of the longest text nothing but the text is printed, so that it is no longer in a file.
#[test]
fn join_to_the_longest_text() {
    let long = |bytes: usize| format!("Name = '{}'", "x".repeat(bytes - 9));
    let folder = joined("join_to_the_longest_text", &long(4_078), "On = TRUE");
    let (status, out, _) = run(&folder, &["join", ".", "first", "second"]);
    assert_eq!((status, out.len()), (0, 4_096));
    fs::write(folder.join("query"), out).unwrap();
    assert_eq!(run(&folder, &["explain", "."]).0, 0);

    fs::write(folder.join("first"), long(4_079)).unwrap();
    let expected = "refused 43 at 0: both queries in one would have more than 64 comparisons or 4,096 bytes\n";
    assert_eq!(run(&folder, &["join", ".", "first", "second"]), (1, String::new(), expected.to_owned()));
}

/// The first query that is refused is named, and the table where it is at fault.
#[test]
fn a_refused_join() {
    let folder = joined("a_refused_join", "On = TRUE\nOR Of = TRUE", "On = TRUE AND");
    let refused = |files: [&str; 2]| {
        let (status, out, error) = run(&folder, &["join", ".", files[0], files[1]]);
        assert_eq!((status, out.as_str()), (1, ""), "{files:?}");
        error
    };
    let unknown = |name: &str| {
        let words = "refused 20 at 13: the table has no such property";
        format!("{words}\n{name} query, line 2, column 4:\n    OR Of = TRUE\n       ^\n")
    };
    assert_eq!(refused(["first", "second"]), unknown("first"));
    fs::write(folder.join("good"), "On = TRUE").unwrap();
    assert_eq!(refused(["first", "good"]), unknown("first"));
    assert_eq!(refused(["good", "first"]), unknown("second"));
    assert_eq!(
        refused(["good", "second"]),
        "refused 11 at 13: this is no token, or no query can have it here\n\
         second query, line 1, column 14, the query's end:\n    On = TRUE AND\n                 ^\n"
    );
    fs::write(folder.join("table"), b"\x01\0\0\x02P\x02\0\x03\0On").unwrap();
    let expected =
        "refused 2 at 5: the table is longer than 8,192 bytes, or its record here is malformed or has a bad name\n\
                    table, record 2, at byte 5:\n    record 0x0003 4F6E\n";
    assert_eq!(refused(["good", "good"]), expected);
    assert_eq!(refused(["first", "second"]), expected);
}

#[test]
fn files_that_cannot_be_read_or_written() {
    let folder = folder("files_that_cannot_be_read_or_written");
    for (arguments, file) in [
        (&["write", "text", "files"][..], "text: "),
        (&["show", "none"], "none/table: "),
        (&["explain", "none"], "none/query: "),
        (&["watch", "none", "3", "2"], "none/query: "),
        (&["join", "none", "first", "second"], "first: "),
    ] {
        let (status, out, error) = run(&folder, arguments);
        assert_eq!((status, out.as_str()), (2, ""));
        assert!(error.starts_with(file), "{error}");
    }
    fs::write(folder.join("text"), TEXT).unwrap();
    for (arguments, file) in [
        (&["write", "text", "text"][..], "text: "),
        (&["join", "none", "text", "second"], "second: "),
        (&["join", "none", "text", "text"], "none/table: "),
    ] {
        let (status, out, error) = run(&folder, arguments);
        assert_eq!((status, out.as_str()), (2, ""));
        assert!(error.starts_with(file), "{error}");
    }
}

#[test]
fn arguments_that_are_none() {
    let folder = folder("arguments_that_are_none");
    for arguments in [
        &[][..],
        &["write"],
        &["write", "text"],
        &["show"],
        &["show", "a", "b"],
        &["explain"],
        &["watch"],
        &["watch", "a"],
        &["watch", "a", "3"],
        &["watch", "a", "3", "2", "1"],
        &["join"],
        &["join", "a"],
        &["join", "a", "b"],
        &["join", "a", "b", "c", "d"],
        &["read", "x"],
    ] {
        let (status, out, error) = run(&folder, arguments);
        assert_eq!((status, out.as_str()), (2, ""));
        assert!(error.starts_with("usage: fqlrec write FILE FOLDER "), "{error}");
    }
}
