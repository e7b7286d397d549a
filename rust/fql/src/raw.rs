//! The archive's functions as they are. `tests/declarations.rs` holds this file against their source and against the C
//! header.

#[repr(C)]
pub struct FqlRefusal {
    pub number: u64,
    pub place: u64,
}

#[repr(C)]
pub struct FqlAnswer {
    pub number: u64,
    pub place: u64,
    pub included: u64,
    pub steps: u64,
}

#[repr(C)]
pub struct FqlTotals {
    pub number: u64,
    pub place: u64,
    pub included: u64,
    pub excluded: u64,
    pub failed: u64,
}

#[repr(C)]
pub struct FqlWatched {
    pub number: u64,
    pub place: u64,
    pub ones: u64,
    pub zeros: u64,
}

#[repr(C)]
pub struct FqlConjoined {
    pub number: u64,
    pub place: u64,
    pub query: u64,
    pub length: u64,
}

#[repr(C)]
pub struct FqlPart {
    pub source: u64,
    pub start: u64,
    pub length: u64,
}

#[link(name = "fql_export", kind = "static")]
extern "C" {
    pub fn fql_check(query: *const u8, query_length: usize, table: *const u8, table_length: usize) -> FqlRefusal;

    pub fn fql_evaluate(
        query: *const u8,
        query_length: usize,
        table: *const u8,
        table_length: usize,
        instance: *const u8,
        instance_length: usize,
    ) -> FqlAnswer;

    pub fn fql_mark(
        query: *const u8,
        query_length: usize,
        table: *const u8,
        table_length: usize,
        run: *const u8,
        run_length: usize,
        marks: *mut u8,
        marks_length: usize,
    ) -> FqlTotals;

    pub fn fql_watch(
        query: *const u8,
        query_length: usize,
        table: *const u8,
        table_length: usize,
        run: *const u8,
        run_length: usize,
        window: u64,
        need: u64,
        marks: *mut u8,
        marks_length: usize,
    ) -> FqlWatched;

    pub fn fql_conjoin(
        first: *const u8,
        first_length: usize,
        second: *const u8,
        second_length: usize,
        table: *const u8,
        table_length: usize,
        buffer: *mut u8,
        buffer_length: usize,
    ) -> FqlConjoined;

    pub fn fql_fault_text(
        query: *const u8,
        query_length: usize,
        table: *const u8,
        table_length: usize,
        number: u64,
        place: u64,
    ) -> FqlPart;
}
