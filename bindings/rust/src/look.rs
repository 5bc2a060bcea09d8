//! The function and the row for a PC.

use crate::calls;
use crate::refusal::Unsound;

/// What [`lookup`] answers.
#[derive(Clone, Copy, Debug, PartialEq, Eq)]
pub struct Answer {
    /// What the lookup came to.
    pub outcome: Outcome,
    /// How many entries were compared: all of them where the section is not sorted, at most 20 where it is, and 0 where
    /// it is refused.
    pub compared: u64,
}

/// What a lookup comes to. Indexes and numbers count from 0.
#[derive(Clone, Copy, Debug, PartialEq, Eq)]
pub enum Outcome {
    /// One function covers the PC, and this is its row there.
    Found {
        /// The function's index.
        function: u64,
        /// The row's number in the function.
        number: u64,
        /// The row.
        row: Row,
    },
    /// 1 to 15: the section is refused.
    Unsound(Unsound),
    /// 21: no function covers the PC.
    NoFunction,
    /// 22: two or more functions cover the PC; these are the two lowest indexes.
    Dispute {
        /// The lowest.
        first: u64,
        /// The one above it.
        second: u64,
    },
    /// 23: the one function that covers the PC has no row that starts at or below it.
    NoRow {
        /// The function's index.
        function: u64,
    },
}

/// How the caller is found from a stretch of a function.
#[derive(Clone, Copy, Debug, PartialEq, Eq)]
pub struct Row {
    /// Where the stretch starts, in bytes from the function's start, or from that of its repeated block.
    pub start: u64,
    /// What CFA counts from.
    pub base: Base,
    /// CFA is the base plus this.
    pub cfa: i64,
    /// Where the return address is; a register means LR.
    pub ra: Place,
    /// Where the caller's FP is; a register means that it is unchanged.
    pub fp: Place,
    /// Whether the return address is signed (AArch64).
    pub signed: bool,
}

/// What CFA counts from.
#[derive(Clone, Copy, Debug, PartialEq, Eq)]
pub enum Base {
    /// The frame pointer.
    Fp,
    /// The stack pointer.
    Sp,
}

/// Where a value is saved.
#[derive(Clone, Copy, Debug, PartialEq, Eq)]
pub enum Place {
    /// In a register.
    Register,
    /// In the word at CFA plus this.
    AtOffset(i64),
}

/// The function and the row for a PC, in a section whose first byte lies at an address. The PC is looked up as it is:
/// ask for a return address minus 1, as a step does, where the function that called is meant.
///
/// ```
/// use suntimpani::example::SECTION_S;
/// use suntimpani::{lookup, Base, Outcome, Place};
///
/// let answer = lookup(&SECTION_S, 0x40_0000, 0x40_1004);
/// let Outcome::Found { function: 0, number: 1, row } = answer.outcome else { panic!("{answer:?}") };
/// assert_eq!((row.base, row.cfa, row.fp), (Base::Fp, 16, Place::AtOffset(-16)));
/// assert_eq!(answer.compared, 2);
///
/// assert_eq!(lookup(&SECTION_S, 0x40_0000, 0x40_1020).outcome, Outcome::NoFunction);
/// ```
pub fn lookup(section: &[u8], address: u64, pc: u64) -> Answer {
    let said = calls::lookup(section, address, pc);
    let outcome = match said.number {
        0 => Outcome::Found { function: said.function, number: said.row, row: Row::of(&said.told) },
        21 => Outcome::NoFunction,
        22 => Outcome::Dispute { first: said.function, second: said.second },
        23 => Outcome::NoRow { function: said.function },
        number => Outcome::Unsound(Unsound::of(number, said.function)),
    };
    Answer { outcome, compared: said.compared }
}

impl Outcome {
    /// The number of the refusal, or 0 where a row is found.
    ///
    /// ```
    /// # use suntimpani::{example::SECTION_S, lookup};
    /// assert_eq!(lookup(&SECTION_S, 0x40_0000, 0x40_1003).outcome.number(), 0);
    /// assert_eq!(lookup(&SECTION_S, 0x40_0000, 0x40_1020).outcome.number(), 21);
    /// ```
    pub fn number(self) -> u64 {
        match self {
            Outcome::Found { .. } => 0,
            Outcome::Unsound(unsound) => unsound.number(),
            Outcome::NoFunction => 21,
            Outcome::Dispute { .. } => 22,
            Outcome::NoRow { .. } => 23,
        }
    }
}

impl Row {
    // By the library's contract a base, a place and the signed bit are 0 or 1.
    pub(crate) fn of(said: &calls::Told) -> Row {
        let base = match said.base {
            0 => Base::Fp,
            1 => Base::Sp,
            other => unreachable!("{other} is no base"),
        };
        let signed = match said.signed_ra {
            0 => false,
            1 => true,
            other => unreachable!("{other} is no bit"),
        };
        let (ra, fp) = (Place::of(said.ra_place, said.ra), Place::of(said.fp_place, said.fp));
        Row { start: said.start, base, cfa: said.cfa, ra, fp, signed }
    }
}

impl Place {
    fn of(kind: u64, offset: i64) -> Place {
        match kind {
            0 => Place::Register,
            1 => Place::AtOffset(offset),
            other => unreachable!("{other} is no place"),
        }
    }
}
