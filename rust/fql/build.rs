//! Links the archive that `rt lib` in `crates/fql_export` writes, or the one in the folder that `FQL_ARCHIVE` names, so
//! that two builds can be held against each other.

fn main() {
    let own = concat!(env!("CARGO_MANIFEST_DIR"), "/../../crates/fql_export/out");
    let archive = std::env::var("FQL_ARCHIVE").unwrap_or_else(|_| own.to_owned());
    println!("cargo:rustc-link-search=native={archive}");
    println!("cargo:rerun-if-changed={archive}/libfql_export.a");
    println!("cargo:rerun-if-env-changed=FQL_ARCHIVE");
}
