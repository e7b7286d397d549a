//! Two queries made into one, beside the second evaluator and beside the two checks that a call begins with.

use crate::clock::{compare, Contestant};

pub fn run() {
    println!("\nconjoin: nanoseconds for each call");
    println!("{:46}{:>12}{:>18}{:>8}{:>12}", "queries", "engine", "second evaluator", "ratio", "two checks");
    let table = crate::data::table();
    for (name, first, second) in pairs() {
        let (first, second) = (first.as_bytes(), second.as_bytes());
        let [mut buffer, mut other] = [[0; fql::LONGEST_QUERY]; 2];
        let length = fql::conjoin(first, second, &table, &mut buffer).unwrap();
        assert_eq!(reference::conjoin(first, second, &table, &mut other), Ok(length));
        assert_eq!(buffer, other, "{name}");
        let times = compare(&mut [
            Contestant::new(|| fql::conjoin(first, second, &table, &mut buffer).unwrap() as u64),
            Contestant::new(|| reference::conjoin(first, second, &table, &mut other).unwrap() as u64),
            Contestant::new(|| [first, second].iter().filter(|q| fql::check(q, &table).is_ok()).count() as u64),
        ]);
        let name = format!("{name}, {length} bytes");
        println!("{name:46}{:>12.0}{:>18.0}{:>8.2}{:>12.0}", times[0], times[1], times[0] / times[1], times[2]);
    }
}

/// From two comparisons to the most that there may be, in one term or in many, and to the most bytes.
fn pairs() -> [(&'static str, String, String); 6] {
    let group = |n: usize| vec!["Temp > 0"; n].join(" AND ");
    let terms = |n: usize| vec!["(Temp > 0)"; n].join(" OR ");
    let long = |bytes: usize| format!("Name = '{}'", "x".repeat(bytes - 9));
    [
        ("one comparison each", group(1), group(1)),
        ("four comparisons each", group(4), group(4)),
        ("32 comparisons each", group(32), group(32)),
        ("32 terms and one", terms(32), group(1)),
        ("4 terms and 8", terms(4), terms(8)),
        ("one long comparison each", long(2_040), long(2_047)),
    ]
}
