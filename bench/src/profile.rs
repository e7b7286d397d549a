//! One call of mark, one of watch, one of conjoin and nothing else, for a profiler: `bench profile KIND` over the
//! small setting or, for kinds of other classes, over theirs, `bench profile KIND large` over the large one and, for
//! kinds that name `Temp` alone, `bench profile KIND late`. Callgrind collects one of the calls with
//! `--toggle-collect=fql_mark`, `fql_watch` or `fql_conjoin`.

use crate::data::{filters, others, Filter, Setting};

/// The filter of a kind; those of the sample class with the setting by name.
fn find(kind: &str, setting: &str) -> (Setting, Filter) {
    if let Some(filter) = filters().into_iter().find(|filter| filter.kind == kind) {
        return (Setting::named(setting), filter);
    }
    others().into_iter().find(|(_, filter)| filter.kind == kind).unwrap_or_else(|| {
        let filters = filters().into_iter().chain(others().into_iter().map(|(_, filter)| filter));
        panic!("the kinds are {:?}", filters.map(|filter| filter.kind).collect::<Vec<_>>())
    })
}

pub fn run(kind: &str, setting: &str) {
    let (setting, filter) = find(kind, setting);
    let (query, mut marks) = (filter.fql.as_bytes(), setting.marks());
    println!("{:?}", fql::mark(query, &setting.table, &setting.run, &mut marks).unwrap());
    println!("{:?}", fql::watch(query, &setting.table, &setting.run, 64, 32, &mut marks).unwrap());
    println!("{:?}", fql::conjunction(query, query, &setting.table).map(|text| text.len()));
}
