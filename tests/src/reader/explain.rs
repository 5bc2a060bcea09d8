//! Why a lookup and a step come to their answers, in numbers that can be checked by hand. Written from the words in
//! which it was asked for, and apart from the search: every function is looked at, and distances are exact.
#![forbid(unsafe_code)]

use super::caller::{Process, Registers};
use super::{accept, Base, Block, Order, Parts, Place, Refusal, Row};
use std::ops::Range;

/// At most so many of the functions that cover a PC are told by their indexes.
pub const MOST_COVERING: usize = 16;

/// A row, and what shows that it is the one for a PC.
#[derive(Clone, Copy, Debug, PartialEq, Eq)]
pub struct FoundRow {
    pub function: u64,
    /// o: from the function's start or, with repeated blocks, from that of its block.
    pub offset: u32,
    /// The row's number in the function.
    pub number: u64,
    pub row: Row,
    /// The start of the next row of the same function.
    pub next: Option<u32>,
}

/// An address that is covered, and the lowest of the functions that cover it.
#[derive(Clone, Copy, Debug, PartialEq, Eq)]
pub struct Near {
    /// From the section's first byte.
    pub at: i64,
    pub function: u64,
}

/// Why a checked section has no row for a PC.
#[derive(Clone, Debug, PartialEq, Eq)]
pub enum Unfound {
    /// 21: the nearest covered addresses on both sides of the PC.
    NoFunction { below: Option<Near>, above: Option<Near> },
    /// 22: how many functions cover the PC, and the lowest of their indexes, rising.
    Disputed { count: u64, first: Vec<u64> },
    /// 23: the offset used, and the start of the function's first row.
    NoRow { function: u64, offset: u32, first: Option<u32> },
}

/// Why a lookup comes to its answer.
#[derive(Clone, Debug, PartialEq, Eq)]
pub enum LookupWhy {
    /// 1 to 15
    Unsound(Refusal),
    Found(FoundRow),
    Unfound(Unfound),
}

/// What an address and an offset come to.
#[derive(Clone, Copy, Debug, PartialEq, Eq)]
pub enum Sum {
    At(u64),
    /// By so much below 0.
    Below(u64),
    /// By so much above 2^64 - 1.
    Above(u64),
}

/// Which word a caller's register is read from.
#[derive(Clone, Copy, Debug, PartialEq, Eq)]
pub enum SavedWord {
    Ra,
    Fp,
}

/// What a step comes to behind its row.
#[derive(Clone, Copy, Debug, PartialEq, Eq)]
pub enum Then {
    /// 24
    NoMask { signed: bool, mask: u64 },
    /// 25
    Outside { base: u64, offset: i64, sum: Sum },
    /// 26
    TooLow { caller_sp: u64, sp: u64, first: u64 },
    /// 27: RA has no place.
    NoPlace { first: u64 },
    /// 28: the first word that is outside, RA's before FP's.
    NotInside { word: SavedWord, cfa: u64, offset: i64, sum: Sum, stack: u64, length: u64 },
    /// RA is as it was read.
    Caller { caller: Registers, cfa: u64, ra: u64 },
}

/// Why a step comes to its answer.
#[derive(Clone, Debug, PartialEq, Eq)]
pub enum StepWhy {
    /// 41: the two numbers whose sum is above 2^64.
    PastTheEnd { stack: u64, length: u64 },
    /// 1 to 15
    Unsound(Refusal),
    /// 21: PC is 0, and there is no mark.
    NothingAsked,
    /// 21 to 23 at the PC looked up.
    Unfound { pc: u64, why: Unfound },
    /// The row at the PC looked up, and what comes of it.
    Found { pc: u64, found: FoundRow, then: Then },
}

impl Unfound {
    /// Document 01's number.
    pub fn number(&self) -> u64 {
        match self {
            Unfound::NoFunction { .. } => 21,
            Unfound::Disputed { .. } => 22,
            Unfound::NoRow { .. } => 23,
        }
    }
}

impl LookupWhy {
    /// Document 01's number; 0 for a row that was found.
    pub fn number(&self) -> u64 {
        match self {
            LookupWhy::Unsound(refusal) => refusal.number,
            LookupWhy::Found(_) => 0,
            LookupWhy::Unfound(why) => why.number(),
        }
    }
}

impl StepWhy {
    /// Document 01's number; 0 for a caller.
    pub fn number(&self) -> u64 {
        match self {
            StepWhy::PastTheEnd { .. } => 41,
            StepWhy::Unsound(refusal) => refusal.number,
            StepWhy::NothingAsked => 21,
            StepWhy::Unfound { why, .. } => why.number(),
            StepWhy::Found { then, .. } => then.number(),
        }
    }
}

impl Then {
    /// Document 01's number; 0 for a caller.
    pub fn number(&self) -> u64 {
        match self {
            Then::NoMask { .. } => 24,
            Then::Outside { .. } => 25,
            Then::TooLow { .. } => 26,
            Then::NoPlace { .. } => 27,
            Then::NotInside { .. } => 28,
            Then::Caller { .. } => 0,
        }
    }
}

impl Sum {
    pub fn of(address: u64, offset: i64) -> Sum {
        match address.checked_add_signed(offset) {
            Some(sum) => Sum::At(sum),
            None if offset < 0 => Sum::Below(offset.unsigned_abs() - address),
            None => Sum::Above(offset.unsigned_abs() - (u64::MAX - address)),
        }
    }
}

/// Why the row for a PC, in a section that is loaded at an address, is the one, or why there is none.
pub fn explain_lookup(section: &[u8], address: u64, pc: u64) -> LookupWhy {
    match accept(section) {
        Err(refusal) => LookupWhy::Unsound(refusal),
        Ok(parts) => match parts.explain(address, pc) {
            Ok(found) => LookupWhy::Found(found),
            Err(why) => LookupWhy::Unfound(why),
        },
    }
}

/// Why a step yields its caller, or why it is refused.
pub fn explain_step(section: &[u8], stack: &[u8], process: Process, registers: Registers) -> StepWhy {
    let length = stack.len() as u64;
    if i128::from(process.stack) + i128::from(length) > 1 << 64 {
        return StepWhy::PastTheEnd { stack: process.stack, length };
    }
    let parts = match accept(section) {
        Ok(parts) => parts,
        Err(refusal) => return StepWhy::Unsound(refusal),
    };
    let pc = match (registers.first, registers.pc) {
        (0, 0) => return StepWhy::NothingAsked,
        (0, pc) => pc - 1,
        (_, pc) => pc,
    };
    match parts.explain(process.section, pc) {
        Err(why) => StepWhy::Unfound { pc, why },
        Ok(found) => {
            let frame = Frame { order: parts.order, stack, process, registers };
            StepWhy::Found { pc, then: frame.then(&found.row), found }
        }
    }
}

impl Parts<'_> {
    fn explain(&self, address: u64, pc: u64) -> Result<FoundRow, Unfound> {
        let d = i128::from(pc) - i128::from(address);
        let covering: Vec<usize> = self.covering(d).collect();
        match covering[..] {
            [] => Err(Unfound::NoFunction { below: self.nearest_below(d), above: self.nearest_above(d) }),
            [only] => self.explain_in(only, d),
            _ => {
                let first = covering.iter().take(MOST_COVERING).map(|&index| index as u64).collect();
                Err(Unfound::Disputed { count: covering.len() as u64, first })
            }
        }
    }

    // The indexes of all functions that cover a place, rising.
    fn covering(&self, d: i128) -> impl Iterator<Item = usize> + '_ {
        self.covered().enumerate().filter(move |(_, places)| places.contains(&d)).map(|(index, _)| index)
    }

    // The places that each function covers: none where its size is 0.
    fn covered(&self) -> impl Iterator<Item = Range<i128>> + '_ {
        let entries = (0..self.table.len()).map(|index| self.entry(index));
        entries.map(|entry| i128::from(entry.start)..i128::from(entry.start) + i128::from(entry.size))
    }

    fn nearest_below(&self, d: i128) -> Option<Near> {
        let begun = self.covered().filter(|places| !places.is_empty() && places.start < d);
        begun.map(|places| places.end.min(d) - 1).max().map(|at| self.near(at))
    }

    fn nearest_above(&self, d: i128) -> Option<Near> {
        let unended = self.covered().filter(|places| !places.is_empty() && d + 1 < places.end);
        unended.map(|places| places.start.max(d + 1)).min().map(|at| self.near(at))
    }

    fn near(&self, at: i128) -> Near {
        let function = self.covering(at).next().expect("a function covers the place");
        Near { at: at as i64, function: function as u64 }
    }

    // Of the one function that covers d.
    fn explain_in(&self, index: usize, d: i128) -> Result<FoundRow, Unfound> {
        let entry = self.entry(index);
        let within = d - i128::from(entry.start);
        // Below the function's size, so below 2^32.
        let offset = match entry.block() {
            Block::Plain => within,
            Block::Repeated(size) => within % i128::from(size),
        } as u32;
        let (function, rows) = (index as u64, self.rows(&entry).collect::<Vec<Row>>());
        let start_of = |number: usize| rows.get(number).map(|row| row.start);
        match rows.iter().rposition(|row| row.start <= offset) {
            None => Err(Unfound::NoRow { function, offset, first: start_of(0) }),
            Some(number) => {
                let (row, next) = (rows[number], start_of(number + 1));
                Ok(FoundRow { function, offset, number: number as u64, row, next })
            }
        }
    }
}

/// What a step has beside its row; the window ends at 2^64 or before it.
struct Frame<'a> {
    order: Order,
    stack: &'a [u8],
    process: Process,
    registers: Registers,
}

impl Frame<'_> {
    // Rules 24 to 28, in their order.
    fn then(&self, row: &Row) -> Then {
        let Registers { sp, fp, first, .. } = self.registers;
        let (mask, offset) = (self.process.mask, row.cfa_offset);
        if row.signed && mask == 0 {
            return Then::NoMask { signed: row.signed, mask };
        }
        let base = match row.base {
            Base::Fp => fp,
            Base::Sp => sp,
        };
        let cfa = match Sum::of(base, offset) {
            Sum::At(cfa) => cfa,
            sum => return Then::Outside { base, offset, sum },
        };
        if cfa < sp || cfa == sp && first == 0 {
            return Then::TooLow { caller_sp: cfa, sp, first };
        }
        if row.ra == Place::Register && first == 0 {
            return Then::NoPlace { first };
        }
        match self.caller(row, cfa) {
            Ok(then) | Err(then) => then,
        }
    }

    fn caller(&self, row: &Row, cfa: u64) -> Result<Then, Then> {
        let Registers { fp, lr, .. } = self.registers;
        let ra = self.saved(SavedWord::Ra, row.ra, cfa, lr)?;
        let fp = self.saved(SavedWord::Fp, row.fp, cfa, fp)?;
        let pc = if row.signed { ra & !self.process.mask } else { ra };
        Ok(Then::Caller { caller: Registers { pc, sp: cfa, fp, lr, first: 0 }, cfa, ra })
    }

    // A register's value as it was saved, or that its word is not wholly inside the window.
    fn saved(&self, word: SavedWord, place: Place, cfa: u64, register: u64) -> Result<u64, Then> {
        let Place::AtOffset(offset) = place else { return Ok(register) };
        let sum = Sum::of(cfa, offset);
        let (stack, length) = (self.process.stack, self.stack.len() as u64);
        let outside = Then::NotInside { word, cfa, offset, sum, stack, length };
        let Sum::At(at) = sum else { return Err(outside) };
        let place = i128::from(at) - i128::from(stack);
        if place < 0 || i128::from(length) < place + 8 {
            return Err(outside);
        }
        let bytes = self.stack[place as usize..].first_chunk().expect("the word lies inside the window");
        Ok(self.order.word(*bytes))
    }
}

#[cfg(test)]
mod tests {
    use super::*;
    use crate::cases::S;

    const ADDRESS: u64 = 0x40_0000;

    fn at(section: &[u8], pc: u64) -> LookupWhy {
        explain_lookup(section, ADDRESS, pc)
    }

    fn between(below: Option<(i64, u64)>, above: Option<(i64, u64)>) -> LookupWhy {
        let [below, above] = [below, above].map(|side| side.map(|(at, function)| Near { at, function }));
        LookupWhy::Unfound(Unfound::NoFunction { below, above })
    }

    // Functions of 0x20 bytes at 0x1000, with rows at 0 and 4, and of 0x10 bytes at 0x1040.
    #[test]
    fn lookups_in_s_are_explained() {
        let LookupWhy::Found(entered) = at(&S, 0x40_1003) else { panic!("a row is found") };
        let told = (entered.function, entered.offset, entered.number, entered.row.start, entered.next);
        assert_eq!(told, (0, 3, 0, 0, Some(4)));
        let LookupWhy::Found(framed) = at(&S, 0x40_101f) else { panic!("a row is found") };
        assert_eq!((framed.offset, framed.number, framed.next), (31, 1, None));
        assert_eq!(at(&S, 0x40_0fff), between(None, Some((0x1000, 0))));
        assert_eq!(at(&S, 0x40_1020), between(Some((0x101f, 0)), Some((0x1040, 1))));
        assert_eq!(at(&S, 0x40_1050), between(Some((0x104f, 1)), None));
        assert_eq!(at(&S[..77], 0x40_1050), LookupWhy::Unsound(Refusal { number: 8, index: 0 }));
    }

    // S with the second start at 0x101f and without the sorted flag; and with the first row at 2.
    #[test]
    fn what_is_not_found_is_explained() {
        let mut overlapping = S;
        (overlapping[3], overlapping[48]) = (0, 0x1f);
        let both = Unfound::Disputed { count: 2, first: vec![0, 1] };
        assert_eq!(at(&overlapping, 0x40_101f), LookupWhy::Unfound(both));
        let mut late = S;
        late[68] = 2;
        let no_row = Unfound::NoRow { function: 0, offset: 1, first: Some(2) };
        assert_eq!(at(&late, 0x40_1001), LookupWhy::Unfound(no_row));
    }

    #[test]
    fn a_sum_is_told_by_how_far_it_is_outside() {
        assert_eq!([Sum::of(8, -8), Sum::of(u64::MAX - 8, 8)], [Sum::At(0), Sum::At(u64::MAX)]);
        assert_eq!([Sum::of(7, -8), Sum::of(u64::MAX - 7, 8)], [Sum::Below(1), Sum::Above(1)]);
        assert_eq!([Sum::of(0, -8), Sum::of(u64::MAX, 8)], [Sum::Below(8), Sum::Above(8)]);
    }
}
