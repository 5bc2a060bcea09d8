//! Reads `.sframe` unwind tables (SFrame version 2; AMD64, and AArch64 in both byte orders) and walks a crashed
//! program's stack, with every answer proved.
//!
//! You lend a section, registers, a stack window and a buffer. [`check`] says whether the section is sound,
//! [`function_at`] where the function with an index lies and [`rows`](rows()) what its rows are, [`lookup`] which
//! function and row cover a PC ([`ask`](ask()) without a check of the whole section), [`Registers::step`] what the
//! caller's registers are, and [`trace`] what the whole trace is. Any bytes and any numbers may be handed in: every
//! call ends, and an answer that cannot be given is a refusal with its number.
//!
//! Nothing is allocated and nothing is kept, so that all of it may be called in a signal handler. The crate needs
//! neither `std` nor an allocator. What a recorder meets, from the stack window's ends to a crash outside the section
//! and sections that the linker drops, is said in the header for C, `suntimpani.h`, and in `docs/INTEGRATING.md`.
//!
//! ```
//! use suntimpani::example::SECTION_S;
//! use suntimpani::{frames, trace, Ending, Process, Registers, USUAL_LIMIT, USUAL_WORDS};
//!
//! let mut stack = [0; 64];
//! stack[..3].copy_from_slice(&[0x08, 0x10, 0x40]);
//! let process = Process { section_address: 0x40_0000, stack_address: 0x7000, mask: 0 };
//! let crash = Registers { pc: 0x40_1044, sp: 0x7000, fp: 0x7030, lr: 0, first: true };
//! let mut words = [0; USUAL_WORDS];
//! let traced = trace(&SECTION_S, &stack, process, crash, USUAL_LIMIT, &mut words);
//! assert_eq!(traced.ending, Ending::Outermost);
//! let returns: Vec<u64> = frames(&words, traced.frames).map(|frame| frame.ra).collect();
//! assert_eq!(returns, [0x40_1008, 0]);
//! ```
#![no_std]
#![deny(unsafe_code)]
#![warn(missing_docs)]

mod ask;
#[allow(unsafe_code)]
mod calls;
pub mod example;
mod functions;
mod look;
mod refusal;
mod rows;
mod walk;

pub use ask::{ask, AskAnswer};
pub use functions::{function_at, functions, Block, Function, Functions};
pub use look::{lookup, Answer, Base, Outcome, Place, Row};
pub use refusal::{Refusal, Rule, Unsound};
pub use rows::{rows, Rows};
pub use walk::{frames, trace, Ending, Frame, Process, Registers, Step, Traced, USUAL_LIMIT, USUAL_WORDS};

/// The version of the library: the header for C has the same as `SUNTIMPANI_VERSION`.
pub const VERSION: &str = env!("CARGO_PKG_VERSION");

/// What [`check`] answers.
#[derive(Clone, Copy, Debug, PartialEq, Eq)]
pub enum Verdict {
    /// The section obeys every rule.
    Accepted,
    /// It breaks one.
    Refused(Unsound),
}

/// Is the section sound? [`lookup`], [`Registers::step`] and [`trace`] ask this first by themselves.
///
/// ```
/// use suntimpani::example::SECTION_S;
/// use suntimpani::{check, Rule, Unsound, Verdict};
///
/// assert_eq!(check(&SECTION_S), Verdict::Accepted);
/// assert_eq!(check(&SECTION_S[..77]), Verdict::Refused(Unsound { rule: Rule::Sizes, index: 0 }));
/// ```
pub fn check(section: &[u8]) -> Verdict {
    let said = calls::check(section);
    match said.number {
        0 => Verdict::Accepted,
        number => Verdict::Refused(Unsound::of(number, said.index)),
    }
}
