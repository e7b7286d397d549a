//! The bound of the steps, by hand: for each comparison of the text one and what it reads, which is the whole left
//! array (arrays compared, ANY, EVERY) or the whole text of a LIKE, and nothing where that is NULL.

use reference::examples::setting::{array, null, types, uint64};
use reference::examples::Setting;
use reference::kind::UINT64;

fn bound(setting: &Setting, query: &str) -> u64 {
    reference::bound(query.as_bytes(), &setting.table(), &setting.instance()).unwrap()
}

#[test]
fn of_one_comparison() {
    for (query, expected) in [
        ("U = 5", 1),
        ("U < I", 1),
        ("Us[0] = 3", 1),
        ("Us[0] = Us[1]", 1),
        ("Us = {3}", 3),
        ("Us = {3,14}", 3),
        ("Us = Is", 3),
        ("Fs = Ds", 2),
        ("Ds = Fs", 3),
        ("ANY Us = 3", 3),
        ("NOT EVERY Us = Is[0]", 3),
        ("S LIKE 'x'", 6),
        ("S NOT LIKE ''", 6),
        ("C LIKE 'x'", 2),
        ("Ss[1] LIKE 'x'", 3),
        ("Ss[9] LIKE 'x'", 1),
    ] {
        assert_eq!(bound(&types(), query), expected, "{query}");
    }
}

#[test]
fn of_null() {
    let setting = types().with("Us", null()).with("S", null());
    for query in ["Us = {3}", "Us = Is", "ANY Us = 3", "EVERY Us = NULL", "S LIKE 'x'", "Us[0] = 3"] {
        assert_eq!(bound(&setting, query), 1, "{query}");
    }
    // The left array is read, whatever the right one is.
    assert_eq!(bound(&setting, "Is = Us"), 3);
}

/// What is skipped is summed too.
#[test]
fn of_several_comparisons() {
    assert_eq!(bound(&types(), "U = 5 OR S LIKE 'x'"), 7);
    assert_eq!(bound(&types(), "(U = 6 AND Us = {3}) OR (ANY Us = 3 AND S LIKE 'x')"), 13);
    let many = types().with("Us", array(UINT64, &vec![uint64(1); 256]));
    assert_eq!(bound(&many, "ANY Us = 1 OR Us = {}"), 514);
}
