//! One address asked of a section without a check of the whole section: the header, the entries that the halving rule
//! compares, and the rows of the one function it lands on. Written from the words in which it was asked for.
#![forbid(unsafe_code)]

use super::lookup::{distance, Last};
use super::{rule, try_fields, try_header, Entry, Parts, Row};
use std::fmt;

/// What asking comes to.
#[derive(Clone, Copy, Debug, PartialEq, Eq)]
pub enum AskedOutcome {
    /// The row, its number in the function (from 0) and the function's index.
    Found { function: u64, number: u64, row: Row },
    /// 1 to 8: the header is refused.
    Unsound(u64),
    /// 45: the sorted flag is not set.
    Unsorted,
    /// 21: no function was landed on, or the one landed on does not cover the PC.
    NoFunction,
    /// 23
    NoRow { function: u64 },
    /// 44: the function landed on covers the PC and breaks one of the rules 9 to 13.
    Damaged { function: u64 },
}

/// An outcome, and the number of entries that were compared on the way to it.
#[derive(Clone, Copy, Debug, PartialEq, Eq)]
pub struct Asked {
    pub outcome: AskedOutcome,
    pub compared: u64,
}

impl Asked {
    /// The number; 0 for a row that was found.
    pub fn refusal(&self) -> u64 {
        match self.outcome {
            AskedOutcome::Found { .. } => 0,
            AskedOutcome::Unsound(number) => number,
            AskedOutcome::NoFunction => 21,
            AskedOutcome::NoRow { .. } => 23,
            AskedOutcome::Damaged { .. } => 44,
            AskedOutcome::Unsorted => 45,
        }
    }
}

impl fmt::Display for Asked {
    fn fmt(&self, to: &mut fmt::Formatter) -> fmt::Result {
        let number = self.refusal();
        match self.outcome {
            AskedOutcome::Found { function, number, row } => {
                write!(to, "found function {function} row {number} {row}")?;
            }
            AskedOutcome::NoRow { function } | AskedOutcome::Damaged { function } => {
                write!(to, "refused {number} at {function}")?;
            }
            AskedOutcome::Unsound(_) | AskedOutcome::Unsorted | AskedOutcome::NoFunction => {
                write!(to, "refused {number}")?;
            }
        }
        write!(to, " compared {}", self.compared)
    }
}

/// The row for a PC in a section that is loaded at an address, by what the answer needs alone.
pub fn ask(section: &[u8], address: u64, pc: u64) -> Asked {
    match try_header(section) {
        Err(number) => Asked { outcome: AskedOutcome::Unsound(number), compared: 0 },
        Ok(parts) if !parts.sorted => Asked { outcome: AskedOutcome::Unsorted, compared: 0 },
        Ok(parts) => parts.ask(distance(address, pc)),
    }
}

impl Parts<'_> {
    fn ask(&self, d: i64) -> Asked {
        let (landed_on, compared) = self.landing(d);
        let outcome = match landed_on {
            Some((index, entry)) if entry.covers(d) => self.in_covering(index as u64, &entry, d),
            _ => AskedOutcome::NoFunction,
        };
        Asked { outcome, compared }
    }

    // The halving rule, whatever order the starts are in: entry low - 1 where low ends above 0, which is the last whose
    // start was at most d, and how many were compared.
    fn landing(&self, d: i64) -> (Option<(usize, Entry)>, u64) {
        let (mut low, mut high, mut compared) = (0, self.table.len(), 0);
        while low < high {
            let middle = (low + high) / 2;
            if self.entry(middle).start <= d {
                low = middle + 1;
            } else {
                high = middle;
            }
            compared += 1;
        }
        (low.checked_sub(1).map(|index| (index, self.entry(index))), compared)
    }

    fn in_covering(&self, function: u64, entry: &Entry, d: i64) -> AskedOutcome {
        match self.last_of_sound(entry, d) {
            Err(_) => AskedOutcome::Damaged { function },
            Ok(None) => AskedOutcome::NoRow { function },
            Ok(Some(Last { number, start, info_at })) => {
                let (info, offsets) = (self.area[info_at], &self.area[info_at + 1..]);
                AskedOutcome::Found { function, number, row: self.meaning(start, info, offsets) }
            }
        }
    }

    // Rules 9 to 13 of a function that covers d, and on the way the last row whose start is at most o.
    fn last_of_sound(&self, entry: &Entry, d: i64) -> Result<Option<Last>, u64> {
        try_fields(self, entry)?;
        let o = entry.offset_of(d);
        match entry.start_width() {
            1 => self.last_of_rows::<1>(entry, o),
            2 => self.last_of_rows::<2>(entry, o),
            _ => self.last_of_rows::<4>(entry, o),
        }
    }

    // Also the rows behind the one that is sought are tried: a fault in any of them is told.
    fn last_of_rows<const START_WIDTH: usize>(&self, entry: &Entry, o: u32) -> Result<Option<Last>, u64> {
        let mut last = None;
        let mut place = entry.first_row as usize;
        let mut start_before = None;
        for number in 0..entry.row_count {
            let row = self.row(place, START_WIDTH)?;
            rule(13, start_before.is_some_and(|before| row.start <= before))?;
            if row.start <= o {
                last = Some(Last { number: number.into(), start: row.start, info_at: place + START_WIDTH });
            }
            start_before = Some(row.start);
            place = row.end;
        }
        Ok(last)
    }
}

#[cfg(test)]
mod tests {
    use super::*;
    use crate::cases::S;
    use crate::reader::{lookup, Base, Outcome, Place};

    const ADDRESS: u64 = 0x40_0000;
    const ENTERED: Row =
        Row { start: 0, base: Base::Sp, cfa_offset: 8, ra: Place::AtOffset(-8), fp: Place::Register, signed: false };

    fn at(section: &[u8], pc: u64) -> Asked {
        ask(section, ADDRESS, pc)
    }

    fn asked(outcome: AskedOutcome, compared: u64) -> Asked {
        Asked { outcome, compared }
    }

    #[test]
    fn s_is_answered_as_a_lookup_does() {
        let entered = AskedOutcome::Found { function: 0, number: 0, row: ENTERED };
        assert_eq!(at(&S, 0x40_1003), asked(entered, 2));
        assert_eq!(at(&S, 0x40_0fff), asked(AskedOutcome::NoFunction, 2));
        assert_eq!(at(&S, 0x40_1050), asked(AskedOutcome::NoFunction, 1));
        for pc in 0x40_0ff0..0x40_1060 {
            assert_eq!(at(&S, pc).to_string(), lookup(&S, ADDRESS, pc).to_string(), "{pc:x}");
        }
    }

    // The second row of the first function starts where the first one does.
    #[test]
    fn a_fault_is_told_where_its_function_is_landed_on() {
        let mut twice = S;
        twice[71] = 0;
        assert_eq!(lookup(&twice, ADDRESS, 0x40_1040).outcome, Outcome::SectionRefused { number: 13, index: 0 });
        assert_eq!(at(&twice, 0x40_1003), asked(AskedOutcome::Damaged { function: 0 }, 2));
        assert_eq!(at(&twice, 0x40_1020), asked(AskedOutcome::NoFunction, 2));
        let second = AskedOutcome::Found { function: 1, number: 0, row: ENTERED };
        assert_eq!(at(&twice, 0x40_1040), asked(second, 1));
    }

    #[test]
    fn the_header_comes_before_the_flag() {
        let mut unsorted = S;
        unsorted[3] = 0;
        assert_eq!(at(&unsorted, 0x40_1003), asked(AskedOutcome::Unsorted, 0));
        assert_eq!(at(&unsorted[..77], 0x40_1003), asked(AskedOutcome::Unsound(8), 0));
        assert_eq!(at(&S[..27], 0x40_1003), asked(AskedOutcome::Unsound(1), 0));
    }

    #[test]
    fn a_function_of_repeated_blocks_of_no_size_is_damaged() {
        let mut blocks = S;
        blocks[44] = 0x10;
        assert_eq!(at(&blocks, 0x40_1003), asked(AskedOutcome::Damaged { function: 0 }, 2));
    }
}
