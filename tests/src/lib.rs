//! The independent reader of `.sframe` sections, what it is tried on, and how the library is held against it.
//!
//! `reader` is written from document 01 alone, and `obvious` makes its lookups, steps and traces once more, slowly, and
//! asks single addresses as it does. `maker` builds sections the other way round, from a description to bytes, and
//! shares nothing with it. `walk` is what is lent to a step and a trace, and `laid` lays long stacks for them. `cases`
//! is the fixed list of named sections, questions and walks, `pack` the form in which they are stored, `large` the
//! sections too big to store, `stream` an endless seeded source of more. `comparison` holds the proved library, called
//! by `library`, against the reader, all memory being `guarded`; by `library::far` a program of another machine calls
//! the archive of that machine. `measured`, `timing`, `painted` and `libsframe` measure both. `words` is what the
//! program `sframe` prints and `reasons` what the program of that name does, and `program` runs them; `shown` is what is
//! stored of the first. `dump` is what other tools printed of a section.
#![deny(unsafe_code)]

pub mod cases;
#[cfg(feature = "library")]
pub mod comparison;
pub mod dump;
#[cfg(feature = "library")]
pub mod guarded;
pub mod laid;
pub mod large;
#[cfg(feature = "library")]
pub mod library;
#[cfg(feature = "measure")]
pub mod libsframe;
pub mod maker;
#[cfg(feature = "measure")]
pub mod measured;
pub mod obvious;
pub mod pack;
#[cfg(feature = "library")]
#[cfg(any(target_arch = "x86_64", target_arch = "aarch64"))]
pub mod painted;
pub mod program;
pub mod reader;
pub mod reasons;
pub mod shown;
pub mod stream;
pub mod timing;
pub mod walk;
pub mod words;

use std::path::{Path, PathBuf};

/// Where a section is loaded when its address is of no interest: far from both ends, so that a PC reaches every place.
pub const ADDRESS: u64 = 0x5555_5555_6000;

/// A path of the repository, whatever the folder that a command was started in.
pub fn in_repository(path: &str) -> PathBuf {
    let tests = Path::new(env!("CARGO_MANIFEST_DIR"));
    tests.parent().expect("this package lies in a folder of the repository").join(path)
}
