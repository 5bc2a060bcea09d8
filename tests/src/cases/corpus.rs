//! Sections written by public assemblers: their verdicts, lookups at the edges of some of their functions, and walks.

use super::corpus_walks;
use super::questions::{defined, edges, Question};
use super::{refused, Case, ACCEPTED};
use crate::in_repository;
use crate::maker::SORTED;
use crate::reader::{functions, Function, Verdict};
use crate::ADDRESS;
use std::collections::BTreeSet;
use std::fs;

/// The folder of the sections written by public assemblers.
pub const CORPUS: &str = "vectors/corpus/sections";

/// Every section of the corpus and its verdict, as vectors/README.md has them.
pub const CORPUS_VERDICTS: [(&str, Verdict); 14] = [
    ("amd64_hand_o", ACCEPTED),
    ("amd64_hand_exe", ACCEPTED),
    ("amd64_gcc_exe", ACCEPTED),
    ("gas_exe", ACCEPTED),
    ("amd64_plt_so", ACCEPTED),
    ("aarch64_hand_exe", ACCEPTED),
    ("aarch64be_hand_exe", ACCEPTED),
    ("aarch64_gcc_o", ACCEPTED),
    ("llvm_amd64_hand_exe", ACCEPTED),
    ("amd64_twice_exe", refused(13, 0)),
    ("amd64_r_o", refused(14, 1)),
    ("llvm_amd64_two_exe", refused(8, 0)),
    ("v1_amd64_hand_o", refused(4, 0)),
    ("v3_amd64_hand_o", refused(4, 0)),
];

/// The bytes of a section of the corpus.
///
/// # Panics
/// Where the file cannot be read.
pub fn corpus_section(name: &str) -> Vec<u8> {
    let path = in_repository(CORPUS).join(format!("{name}.sframe"));
    fs::read(&path).unwrap_or_else(|error| panic!("{}: {error}", path.display()))
}

pub fn all() -> Vec<Case> {
    let mut cases = Vec::new();
    for (name, verdict) in CORPUS_VERDICTS {
        let section = corpus_section(name);
        let questions = if verdict == ACCEPTED { of_some_functions(&section) } else { Vec::new() };
        cases.push(Case::new(name, section, verdict).asked(questions).walked(corpus_walks::of(name)));
    }
    cases
}

// At the edges of the first function, the last, and those at the quarters between.
fn of_some_functions(section: &[u8]) -> Vec<Question> {
    let all = functions(section);
    let some = BTreeSet::from([0, 1, 2, 3, 4].map(|quarter| (all.len() - 1) * quarter / 4));
    let asked: Vec<Function> = some.iter().map(|&index| with_outer_rows(&all[index])).collect();
    defined(section[3] & SORTED != 0, &all, ADDRESS, &edges(&asked))
}

// A function with its first three rows and its last two, where it has more: that many edges are enough.
fn with_outer_rows(function: &Function) -> Function {
    let mut outer = function.clone();
    let count = outer.rows.len();
    if count > 5 {
        outer.rows.drain(3..count - 2);
    }
    outer
}
