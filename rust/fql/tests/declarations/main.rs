//! The C header and the Rust declarations against the archive's source: names, order, types, constness and count.

mod declared;
mod tokens;

use declared::{of_c, of_rattle, of_rust, Declared};
use fql::{record, Cause};

const SOURCE: &str = include_str!("../../../../crates/fql_export/src/lib.rt");
const HEADER: &str = include_str!("../../../../include/fql.h");
const RUST: &str = include_str!("../../src/raw.rs");
const TYPES: &str = include_str!("../../src/types.rs");

fn compare(source: &str, other: Result<Declared, String>) -> Result<(), String> {
    let (source, other) = (of_rattle(source)?, other?);
    match source == other {
        true => Ok(()),
        false => Err(format!("the archive's source declares\n{source:#?}\nand not\n{other:#?}")),
    }
}

#[test]
fn the_header_declares_what_the_source_does() {
    compare(SOURCE, of_c(HEADER)).unwrap();
}

#[test]
fn the_wrapper_declares_what_the_source_does() {
    compare(SOURCE, of_rust(RUST)).unwrap();
}

#[test]
fn there_are_six_functions_and_six_structs() {
    let source = of_rattle(SOURCE).unwrap();
    let names = |text: &str| text.split(' ').map(str::to_owned).collect::<Vec<_>>();
    let functions: Vec<String> = source.functions.iter().map(|f| f.0.clone()).collect();
    assert_eq!(functions, names("fql_check fql_evaluate fql_mark fql_watch fql_conjoin fql_fault_text"));
    let structs: Vec<String> = source.structs.iter().map(|s| s.0.clone()).collect();
    assert_eq!(structs, names("FqlRefusal FqlAnswer FqlTotals FqlWatched FqlConjoined FqlPart"));
    let parameters = |n: usize| source.functions[n].1.iter().map(|p| p.0.clone()).collect::<Vec<_>>();
    let of_mark = "query query_length table table_length run run_length marks marks_length";
    assert_eq!(parameters(2), names(of_mark));
    assert_eq!(parameters(3), names(&of_mark.replace("marks marks_length", "window need marks marks_length")));
    let of_conjoin = "first first_length second second_length table table_length buffer buffer_length";
    assert_eq!(parameters(4), names(of_conjoin));
}

fn edited(text: &str, old: &str, new: &str) -> String {
    assert!(text.contains(old), "{old} is not there");
    text.replacen(old, new, 1)
}

#[test]
fn a_changed_header_is_noticed() {
    for (old, new) in [
        ("uint64_t number;\n    uint64_t place;", "uint64_t place;\n    uint64_t number;"),
        ("uint64_t steps;", "uint32_t steps;"),
        ("uint64_t steps;", "int64_t steps;"),
        ("    uint64_t steps;\n", ""),
        ("uint64_t failed;", "uint64_t failed;\n    uint64_t more;"),
        ("uint64_t ones;\n    uint64_t zeros;", "uint64_t zeros;\n    uint64_t ones;"),
        ("} fql_part;", "} fql_piece;"),
        ("fql_refusal fql_check(const uint8_t *query", "fql_refusal fql_check(uint8_t *query"),
        ("uint8_t *marks", "const uint8_t *marks"),
        ("size_t query_length", "uint64_t query_length"),
        ("const uint8_t *run, size_t run_length", "size_t run_length, const uint8_t *run"),
        ("fql_answer fql_evaluate(", "fql_refusal fql_evaluate("),
        ("fql_totals fql_mark(", "fql_totals fql_marks("),
        ("fql_watched fql_watch(", "fql_answer fql_watch("),
        ("uint64_t window, uint64_t need,", "uint64_t need, uint64_t window,"),
        ("uint64_t window, uint64_t need,", "size_t window, size_t need,"),
        ("uint64_t query;\n    uint64_t length;", "uint64_t length;\n    uint64_t query;"),
        ("uint8_t *buffer", "const uint8_t *buffer"),
        ("fql_conjoined fql_conjoin(", "fql_watched fql_conjoin("),
        (
            "const uint8_t *first, size_t first_length, const uint8_t *second, size_t second_length",
            "const uint8_t *second, size_t second_length, const uint8_t *first, size_t first_length",
        ),
        ("uint64_t number, uint64_t place);", "uint64_t place, uint64_t number);"),
        ("uint64_t number, uint64_t place);", "uint64_t number);"),
        ("uint64_t number, uint64_t place);", "uint64_t number, uint64_t place);\nfql_part fql_more(uint64_t number);"),
    ] {
        assert!(compare(SOURCE, of_c(&edited(HEADER, old, new))).is_err(), "{old}\n{new}");
    }
}

#[test]
fn a_changed_wrapper_is_noticed() {
    for (old, new) in [
        ("pub number: u64,\n    pub place: u64,", "pub place: u64,\n    pub number: u64,"),
        ("pub steps: u64,", "pub steps: u32,"),
        ("#[repr(C)]\npub struct FqlPart", "pub struct FqlPart"),
        ("marks: *mut u8", "marks: *const u8"),
        ("instance_length: usize", "instance_length: u64"),
        ("-> FqlTotals", "-> FqlAnswer"),
        ("-> FqlWatched", "-> FqlAnswer"),
        ("window: u64", "window: usize"),
        ("pub ones: u64,\n    pub zeros: u64,", "pub zeros: u64,\n    pub ones: u64,"),
        ("pub query: u64,\n    pub length: u64,", "pub length: u64,\n    pub query: u64,"),
        ("buffer: *mut u8", "buffer: *const u8"),
        ("-> FqlConjoined", "-> FqlWatched"),
        ("pub fn fql_check", "pub fn fql_checks"),
    ] {
        assert!(compare(SOURCE, of_rust(&edited(RUST, old, new))).is_err(), "{old}\n{new}");
    }
}

#[test]
fn a_changed_source_is_noticed() {
    for (old, new) in [
        ("pub extern \"C\" fn fql_check<'a>(query: &'a [u8]", "pub extern \"C\" fn fql_check<'a>(text: &'a [u8]"),
        ("marks: &mut [u8]", "marks: &'a [u8]"),
        ("pub length: u64", "pub length: u32"),
        ("window: u64,\n    need: u64", "need: u64,\n    window: u64"),
        ("first: &'a [u8],\n    second: &'a [u8]", "second: &'a [u8],\n    first: &'a [u8]"),
        ("buffer: &mut [u8]", "buffer: &'a [u8]"),
        ("#[repr(C)]\npub struct FqlPart", "pub struct FqlPart"),
    ] {
        let source = edited(SOURCE, old, new);
        assert!(compare(&source, of_c(HEADER)).is_err(), "{old}\n{new}");
    }
}

/// `12` or `0x0C`.
fn number(text: &str) -> u64 {
    let parsed = match text.strip_prefix("0x") {
        Some(digits) => u64::from_str_radix(digits, 16),
        None => text.parse(),
    };
    parsed.unwrap_or_else(|_| panic!("{text} is no number"))
}

/// The header's constants, `FQL_NAME = number`.
fn constants(text: &str) -> Vec<(String, u64)> {
    let tokens = tokens::tokens(text);
    let constant = |w: &[String]| (w[0].starts_with("FQL_") && w[1] == "=").then(|| (w[0].clone(), number(&w[2])));
    tokens.windows(3).filter_map(constant).collect()
}

/// The wrapper's types, `pub const NAME: u16 = number`, by the names that the header gives them.
fn types() -> Vec<(String, u64)> {
    let tokens = tokens::tokens(TYPES);
    let constant = |w: &[String]| (w[1] == "const").then(|| (format!("FQL_TYPE_{}", w[2]), number(&w[6])));
    tokens.windows(7).filter_map(constant).collect()
}

/// `NameTwice` as `FQL_NAME_TWICE`.
fn constant_of(cause: Cause) -> String {
    let name = format!("{cause:?}");
    let part = |c: char| if c.is_uppercase() { format!("_{c}") } else { c.to_uppercase().to_string() };
    format!("FQL{}", name.chars().map(part).collect::<String>())
}

/// The numbers of the wrapper by the header's names, in any order.
fn numbers() -> Vec<(String, u64)> {
    let own = |(name, number): (&str, u16)| (name.to_owned(), u64::from(number));
    let records = [
        ("FQL_RECORD_NULL", record::NULL),
        ("FQL_RECORD_CLASS", record::CLASS),
        ("FQL_RECORD_INSTANCE", record::INSTANCE),
    ];
    let types = types().into_iter().chain([own(("FQL_TYPE_ARRAY", record::ARRAY))]);
    let causes = Cause::ALL.into_iter().map(|cause| (constant_of(cause), cause.number()));
    let marks = [("FQL_EXCLUDED", fql::EXCLUDED), ("FQL_INCLUDED", fql::INCLUDED), ("FQL_FAILED", fql::FAILED)];
    let marks = marks.map(|(name, byte)| (name, u16::from(byte)));
    let sources = [("FQL_NOTHING", 0), ("FQL_OF_QUERY", 1), ("FQL_OF_TABLE", 2)];
    let expected = records.into_iter().map(own).chain(types).chain(causes);
    expected.chain(marks.map(own)).chain(sources.map(own)).collect()
}

fn sorted(mut constants: Vec<(String, u64)>) -> Vec<(String, u64)> {
    constants.sort();
    constants
}

#[test]
fn the_header_s_numbers_are_those_of_the_wrapper() {
    assert_eq!(sorted(constants(HEADER)), sorted(numbers()));
}

/// Both list the causes in the order in which they are tried.
#[test]
fn the_header_s_causes_are_in_the_wrapper_s_order() {
    let causes = Cause::ALL.map(constant_of);
    let names: Vec<String> = constants(HEADER).into_iter().map(|(name, _)| name).collect();
    let listed: Vec<&String> = names.iter().filter(|name| causes.contains(name)).collect();
    assert_eq!(listed, causes.iter().collect::<Vec<_>>());
}

#[test]
fn a_changed_number_is_noticed() {
    for (old, new) in [
        ("FQL_TYPE_SINT8 = 0x0021", "FQL_TYPE_SINT8 = 0x0022"),
        ("FQL_TYPE_UINT64 = 0x0018", "FQL_TYPE_UINT64 = 2"),
        ("FQL_TYPE_ARRAY = 0x0100", "FQL_TYPE_ARRAY = 0x1000"),
        ("FQL_TYPE_REAL64 = 5", "FQL_TYPE_REAL = 5"),
        ("FQL_RECORD_CLASS = 0x0200", "FQL_RECORD_CLASS = 0x0300"),
        ("FQL_FAILED = 255", "FQL_FAILED = 2"),
        ("FQL_RUN = 40", "FQL_RUN = 41"),
        ("FQL_WINDOW = 42", "FQL_WINDOW = 43"),
        ("FQL_CONJUNCTION_SIZE = 43", "FQL_CONJUNCTION_SIZE = 44"),
        ("FQL_CONJUNCTION_BUFFER = 44", "FQL_BUFFER = 44"),
    ] {
        assert_ne!(sorted(constants(&edited(HEADER, old, new))), sorted(numbers()), "{new}");
    }
}
