//! That nothing is allocated and that there is no state, read off the static library itself, by `nm` and `size` of the
//! system's binutils. It has the eight functions of the header and no other name to be linked to; it needs no function
//! of anyone, so it can call no allocator; and it has no byte that could be written to.
#![cfg(feature = "library")]

use std::env;
use std::path::PathBuf;
use std::process::Command;
use suntimpani_tests::in_repository;

/// The folder of the archive that is linked, as build.rs has it.
const USUAL_FOLDER: &str = if cfg!(target_arch = "aarch64") { "target/aarch64-linux-gnu" } else { "target/staticlib" };

/// The archive that is linked; or another one, for a machine that this test need not run on.
fn archive() -> PathBuf {
    let linked = || env::var_os("SUNTIMPANI_LIB_DIR").map_or_else(|| in_repository(USUAL_FOLDER), PathBuf::from);
    env::var_os("SUNTIMPANI_ARCHIVE").map_or_else(|| linked().join("libsuntimpani.a"), PathBuf::from)
}

/// What a tool prints of the archive. GNU's read objects of other machines too.
fn said(tool: &str, words: &[&str]) -> String {
    let output = Command::new(tool).args(words).arg(archive()).output();
    let output = output.unwrap_or_else(|error| panic!("{tool}, of binutils, cannot be run: {error}"));
    assert!(output.status.success(), "{tool}: {}", String::from_utf8_lossy(&output.stderr));
    String::from_utf8(output.stdout).expect("text")
}

/// The names in what `nm --format=posix` prints; the line of a member ends with a colon.
fn names(text: &str) -> Vec<&str> {
    let of_symbols = text.lines().filter(|line| !line.is_empty() && !line.ends_with(':'));
    of_symbols.map(|line| line.split_whitespace().next().expect("a name")).collect()
}

/// Bytes that can be written to, in what `size` prints: the columns data and bss of every line below the head.
fn written_to(text: &str) -> u64 {
    let columns = text.lines().skip(1).flat_map(|line| line.split_whitespace().skip(1).take(2));
    columns.map(|shown| shown.parse::<u64>().expect("a decimal number")).sum()
}

#[test]
fn it_exports_the_eight_functions_alone() {
    let text = said("nm", &["--format=posix", "--defined-only", "--extern-only"]);
    let mut exported = names(&text);
    exported.sort_unstable();
    let calls = ["ask", "caller", "check", "function_at", "lookup", "next_row", "rows_of", "trace"];
    let of_header = calls.map(|call| format!("suntimpani_{call}"));
    assert_eq!(exported, of_header);
}

#[test]
fn it_needs_no_function_of_anyone() {
    let text = said("nm", &["--format=posix", "--undefined-only"]);
    assert_eq!(names(&text), Vec::<&str>::new());
}

#[test]
fn it_has_no_byte_to_write_to() {
    let text = said("size", &["--format=berkeley"]);
    assert!(text.lines().count() > 1, "{text}");
    assert_eq!(written_to(&text), 0, "{text}");
}

/// The same over what the tools print of a library that allocates and has state.
#[test]
fn an_allocation_or_a_state_would_be_seen() {
    assert_eq!(
        names("libx.a[x.o]:\nmalloc U         \n_GLOBAL_OFFSET_TABLE_ U\n"),
        ["malloc", "_GLOBAL_OFFSET_TABLE_"]
    );
    let head = "   text\t   data\t    bss\t    dec\t    hex\tfilename\n";
    assert_eq!(written_to(&format!("{head}   7121\t      0\t      0\t   7121\t   1bd1\tx.o (ex libx.a)\n")), 0);
    assert_eq!(written_to(&format!("{head}     10\t      8\t     64\t     82\t     52\tx.o (ex libx.a)\n")), 72);
}
