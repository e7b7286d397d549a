//! Finds the peers that are installed: each is compiled and linked only where its library is at hand.

use std::process::Command;

fn main() {
    println!("cargo:rerun-if-changed=peers");
    println!("cargo:rustc-check-cfg=cfg(sqlite, re2)");
    if links("#include <sqlite3.h>\nint main() { return sqlite3_libversion_number() == 0; }", "sqlite3") {
        println!("cargo:rustc-cfg=sqlite");
        println!("cargo:rustc-link-lib=sqlite3");
    }
    if links("#include <re2/re2.h>\nint main() { return !RE2::FullMatch(\"a\", \"a\"); }", "re2") {
        let out = std::env::var("OUT_DIR").unwrap();
        let object = format!("{out}/re2_peer.o");
        let archive = format!("{out}/libre2_peer.a");
        run(Command::new("g++").args(["-std=c++17", "-O3", "-c", "peers/re2.cc", "-o", &object]));
        run(Command::new("ar").args(["crs", &archive, &object]));
        println!("cargo:rustc-cfg=re2");
        println!("cargo:rustc-link-search=native={out}");
        for library in ["static=re2_peer", "re2", "stdc++"] {
            println!("cargo:rustc-link-lib={library}");
        }
    }
}

/// Whether a small program that uses the library compiles and links.
fn links(program: &str, library: &str) -> bool {
    let out = std::env::var("OUT_DIR").unwrap();
    let source = format!("{out}/{library}_probe.cc");
    std::fs::write(&source, program).unwrap();
    let flags = ["-std=c++17", &source, "-o", &format!("{out}/{library}_probe"), &format!("-l{library}")];
    Command::new("g++").args(flags).output().is_ok_and(|done| done.status.success())
}

fn run(command: &mut Command) {
    let status = command.status().unwrap_or_else(|e| panic!("{command:?}: {e}"));
    assert!(status.success(), "{command:?}: {status}");
}
