//! Lookups: the function and the row for a PC, as document 01 has it under "Finding the row".
//!
//! A section is checked once and may then be asked any number of times. Nothing is copied out of it but the one row
//! that is answered with.
#![forbid(unsafe_code)]

use super::{accept, Base, Entry, Order, Parts, Place, Refusal, Row};
use std::fmt;

/// What a lookup comes to.
#[derive(Clone, Copy, Debug, PartialEq, Eq)]
pub enum Outcome {
    /// The row, its number in the function (from 0) and the function's index.
    Found { function: u64, number: u64, row: Row },
    /// 1 to 15: the section is refused, and nothing was looked for.
    SectionRefused { number: u64, index: u64 },
    /// 21
    NoFunction,
    /// 22: the two lowest of the functions that cover the PC.
    Disputed { first: u64, second: u64 },
    /// 23
    NoRow { function: u64 },
}

/// An outcome, and the number of entries that were compared on the way to it.
#[derive(Clone, Copy, Debug, PartialEq, Eq)]
pub struct Answer {
    pub outcome: Outcome,
    pub compared: u64,
}

impl Answer {
    /// Document 01's number; 0 for a row that was found.
    pub fn refusal(&self) -> u64 {
        match self.outcome {
            Outcome::Found { .. } => 0,
            Outcome::SectionRefused { number, .. } => number,
            Outcome::NoFunction => 21,
            Outcome::Disputed { .. } => 22,
            Outcome::NoRow { .. } => 23,
        }
    }
}

impl fmt::Display for Answer {
    fn fmt(&self, to: &mut fmt::Formatter) -> fmt::Result {
        match self.outcome {
            Outcome::Found { function, number, row } => write!(to, "found function {function} row {number} {row}")?,
            Outcome::SectionRefused { number, index } => write!(to, "refused {number} at {index}")?,
            Outcome::NoFunction => write!(to, "refused 21")?,
            Outcome::Disputed { first, second } => write!(to, "refused 22 at {first} and {second}")?,
            Outcome::NoRow { function } => write!(to, "refused 23 at {function}")?,
        }
        write!(to, " compared {}", self.compared)
    }
}

impl fmt::Display for Row {
    fn fmt(&self, to: &mut fmt::Formatter) -> fmt::Result {
        let base = match self.base {
            Base::Fp => "fp",
            Base::Sp => "sp",
        };
        write!(to, "start {} cfa {base}{:+}", self.start, self.cfa_offset)?;
        write!(to, " ra {} fp {} signed {}", self.ra, self.fp, u8::from(self.signed))
    }
}

impl fmt::Display for Place {
    fn fmt(&self, to: &mut fmt::Formatter) -> fmt::Result {
        match self {
            Place::Register => write!(to, "register"),
            Place::AtOffset(offset) => write!(to, "cfa{offset:+}"),
        }
    }
}

/// The row for a PC in a section that is loaded at an address: the section checks, then the search.
pub fn lookup(section: &[u8], address: u64, pc: u64) -> Answer {
    match Checked::open(section) {
        Ok(checked) => checked.find(address, pc),
        Err(Refusal { number, index }) => Answer { outcome: Outcome::SectionRefused { number, index }, compared: 0 },
    }
}

/// A section that the checks have accepted: one check serves any number of lookups.
pub struct Checked<'a>(Parts<'a>);

/// The functions that cover a place, as far as an answer tells of them.
enum Covering {
    None,
    One(usize),
    Two(usize, usize),
}

/// The last row whose start is low enough: its number and start, and the place of its info byte in the row area.
pub(super) struct Last {
    pub(super) number: u64,
    pub(super) start: u32,
    pub(super) info_at: usize,
}

impl<'a> Checked<'a> {
    pub fn open(section: &'a [u8]) -> Result<Checked<'a>, Refusal> {
        accept(section).map(Checked)
    }

    pub(super) fn order(&self) -> Order {
        self.0.order
    }

    pub(super) fn parts(&self) -> &Parts<'_> {
        &self.0
    }

    /// The row for a PC where the section is loaded at an address.
    pub fn find(&self, address: u64, pc: u64) -> Answer {
        let d = distance(address, pc);
        let (covering, compared) = if self.0.sorted { self.by_halving(d) } else { self.among_all(d) };
        let outcome = match covering {
            Covering::None => Outcome::NoFunction,
            Covering::One(function) => self.in_function(function, d),
            Covering::Two(first, second) => Outcome::Disputed { first: first as u64, second: second as u64 },
        };
        Answer { outcome, compared }
    }

    // Sorted: no function begins before the one before it ends, so that only the last that begins at or before d can
    // cover it.
    fn by_halving(&self, d: i64) -> (Covering, u64) {
        let (mut low, mut high, mut compared) = (0, self.0.table.len(), 0);
        while low < high {
            let middle = (low + high) / 2;
            if self.0.entry(middle).start <= d {
                low = middle + 1;
            } else {
                high = middle;
            }
            compared += 1;
        }
        let covering = match low.checked_sub(1) {
            Some(last) if self.0.entry(last).covers(d) => Covering::One(last),
            _ => Covering::None,
        };
        (covering, compared)
    }

    // Unsorted: every entry counts as compared, also those behind the second that covers d, which can change nothing.
    fn among_all(&self, d: i64) -> (Covering, u64) {
        let mut covering = (0..self.0.table.len()).filter(|&index| self.0.entry(index).covers(d));
        let found = match (covering.next(), covering.next()) {
            (None, _) => Covering::None,
            (Some(only), None) => Covering::One(only),
            (Some(first), Some(second)) => Covering::Two(first, second),
        };
        (found, self.0.table.len() as u64)
    }

    // The last row of a function that covers d whose start is at most o.
    fn in_function(&self, index: usize, d: i64) -> Outcome {
        let entry = self.0.entry(index);
        let function = index as u64;
        let o = entry.offset_of(d);
        let last = match entry.start_width() {
            1 => self.last_row::<1>(&entry, o),
            2 => self.last_row::<2>(&entry, o),
            _ => self.last_row::<4>(&entry, o),
        };
        match last {
            None => Outcome::NoRow { function },
            Some(Last { number, start, info_at }) => {
                let (info, offsets) = (self.0.area[info_at], &self.0.area[info_at + 1..]);
                Outcome::Found { function, number, row: self.0.meaning(start, info, offsets) }
            }
        }
    }

    // Starts rise from row to row, so that the first that is too high ends the search.
    fn last_row<const START_WIDTH: usize>(&self, entry: &Entry, o: u32) -> Option<Last> {
        let mut last = None;
        let mut place = entry.first_row as usize;
        for number in 0..entry.row_count {
            let fixed = &self.0.area[place..place + START_WIDTH + 1];
            let start = self.0.order.unsigned(&fixed[..START_WIDTH]);
            if start > o {
                break;
            }
            last = Some(Last { number: number.into(), start, info_at: place + START_WIDTH });
            place += START_WIDTH + 1 + offset_bytes(fixed[START_WIDTH]);
        }
        last
    }
}

// PC minus the section's address, a whole number. No start and no end of a function is as far from 0 as 2^34, so that
// what is farther than 2^62 can be brought there: it compares with all of them as before.
pub(super) fn distance(address: u64, pc: u64) -> i64 {
    let exact = i128::from(pc) - i128::from(address);
    exact.clamp(-(1 << 62), 1 << 62) as i64
}

// How many bytes the offsets of a row have, by its info.
pub(super) fn offset_bytes(info: u8) -> usize {
    usize::from(info >> 1 & 0xf) << (info >> 5 & 0x3)
}

impl Entry {
    // o, of a place that the function covers.
    #[inline(always)]
    pub(super) fn offset_of(&self, d: i64) -> u32 {
        // Below the function's size, so below 2^32.
        let within = (d - self.start) as u32;
        if self.is_repeated() {
            within % u32::from(self.repeat)
        } else {
            within
        }
    }

    pub(super) fn covers(&self, d: i64) -> bool {
        // One comparison for both ends: below the start the difference is negative, and far above every size.
        ((d - self.start) as u64) < u64::from(self.size)
    }
}
