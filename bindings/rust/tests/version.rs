//! The crate and the header for C have the same version, and the same usual limit.

use std::fs;

/// Holds the header to define a name so.
fn header_defines(name: &str, value: &str) {
    let header = concat!(env!("CARGO_MANIFEST_DIR"), "/../../include/suntimpani.h");
    let header = fs::read_to_string(header).expect("the header for C");
    let defined = format!("#define {name} {value}");
    assert!(header.lines().any(|line| line == defined), "the header has no line '{defined}'");
}

#[test]
fn the_header_has_the_same_version() {
    header_defines("SUNTIMPANI_VERSION", &format!("\"{}\"", suntimpani::VERSION));
}

#[test]
fn the_header_has_the_same_usual_limit() {
    header_defines("SUNTIMPANI_USUAL_LIMIT", &suntimpani::USUAL_LIMIT.to_string());
}
