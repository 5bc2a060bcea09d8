//! The program that README.md shows for Rust is the example `readme`, byte for byte; cargo compiles every example.

use std::fs;

/// The blocks of a page that are fenced as Rust.
fn blocks(page: &str) -> Vec<&str> {
    page.split("```rust\n").skip(1).filter_map(|rest| rest.split_once("```")).map(|(block, _)| block).collect()
}

fn text_of(path: &str) -> String {
    let path = format!("{}/{path}", env!("CARGO_MANIFEST_DIR"));
    fs::read_to_string(&path).unwrap_or_else(|error| panic!("{path}: {error}"))
}

#[test]
fn readme_shows_the_example() {
    assert_eq!(blocks(&text_of("../../README.md")), [text_of("examples/readme.rs")]);
}

#[test]
fn every_block_of_rust_is_seen() {
    let page = "```rust\nfn main() {}\n```\n\n```c\nint i;\n```\n\n    make\n\n```rust\nuse a;\n\nuse b;\n```\n";
    assert_eq!(blocks(page), ["fn main() {}\n", "use a;\n\nuse b;\n"]);
}
