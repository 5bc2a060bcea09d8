//! What the program `reasons` reads and prints: records, and of each two lines, why a lookup and why a step come to
//! their answers.
//!
//! A record is ten words of 8 bytes, little-endian: the section's length, the stack's length, the section's address,
//! the stack's address, the mask, PC, SP, FP, LR and the mark; then the section's bytes, and the stack's. Records follow
//! each other with nothing between.
#![forbid(unsafe_code)]

mod kinds;

pub use kinds::Kind;

use crate::reader::{explain_lookup, explain_step};
use crate::reader::{FoundRow, LookupWhy, Near, Process, Refusal, Registers, SavedWord, StepWhy, Sum, Then, Unfound};

/// The most bytes of records that the program reads.
pub const MOST_BYTES: usize = 4_000_000;

/// The text of what is expected of the stored records is smaller than this many bytes.
pub const EXPECTED_LIMIT: usize = 1_000_000;

const HEAD_BYTES: usize = 80;

/// What a lookup and a step are asked with.
#[derive(Clone, Debug, PartialEq, Eq)]
pub struct Record {
    pub section: Vec<u8>,
    pub stack: Vec<u8>,
    pub process: Process,
    pub registers: Registers,
}

impl Record {
    /// How many bytes it is packed into.
    pub fn length(&self) -> usize {
        HEAD_BYTES + self.section.len() + self.stack.len()
    }

    /// Puts it at the end of a file of records.
    pub fn put(&self, records: &mut Vec<u8>) {
        let Registers { pc, sp, fp, lr, first } = self.registers;
        let Process { section, stack, mask } = self.process;
        let lengths = [self.section.len() as u64, self.stack.len() as u64];
        for word in lengths.into_iter().chain([section, stack, mask, pc, sp, fp, lr, first]) {
            records.extend(word.to_le_bytes());
        }
        records.extend(&self.section);
        records.extend(&self.stack);
    }

    pub fn lookup(&self) -> LookupWhy {
        explain_lookup(&self.section, self.process.section, self.registers.pc)
    }

    pub fn step(&self) -> StepWhy {
        explain_step(&self.section, &self.stack, self.process, self.registers)
    }

    /// Of its lookup and of its step.
    pub fn kinds(&self) -> [Kind; 2] {
        [Kind::of_lookup(&self.lookup()), Kind::of_step(&self.step())]
    }

    /// The two lines, by what the reader says.
    pub fn lines(&self) -> String {
        lookup_line(&self.lookup()) + &step_line(&self.step())
    }
}

/// Why a lookup comes to its answer, as a line.
pub fn lookup_line(why: &LookupWhy) -> String {
    match why {
        LookupWhy::Unsound(refusal) => format!("lookup {}\n", unsound(refusal)),
        LookupWhy::Found(row) => format!("lookup found {}\n", found(row)),
        LookupWhy::Unfound(why) => format!("lookup {}\n", unfound(why)),
    }
}

/// Why a step comes to its answer, as a line.
pub fn step_line(why: &StepWhy) -> String {
    match why {
        StepWhy::PastTheEnd { stack, length } => format!("step 41 stack {stack:016x} length {length}\n"),
        StepWhy::Unsound(refusal) => format!("step {}\n", unsound(refusal)),
        StepWhy::NothingAsked => "step 21 nothing asked\n".to_string(),
        StepWhy::Unfound { pc, why } => format!("step at {pc:016x} {}\n", unfound(why)),
        StepWhy::Found { pc, found: row, then } => {
            format!("step at {pc:016x} found {} then {}\n", found(row), behind(then))
        }
    }
}

fn unsound(Refusal { number, index }: &Refusal) -> String {
    format!("refused {number} at {index}")
}

fn found(FoundRow { function, offset, number, row, next }: &FoundRow) -> String {
    format!("function {function} offset {offset} row {number} {row} next {}", or_none(next))
}

fn unfound(why: &Unfound) -> String {
    match why {
        Unfound::NoFunction { below, above } => format!("21 below {} above {}", near(below), near(above)),
        Unfound::Disputed { count, first } => {
            let first: String = first.iter().map(|index| format!(" {index}")).collect();
            format!("22 covering {count}:{first}")
        }
        Unfound::NoRow { function, offset, first } => {
            format!("23 function {function} offset {offset} first {}", or_none(first))
        }
    }
}

fn near(near: &Option<Near>) -> String {
    near.map_or("none".to_string(), |Near { at, function }| format!("{at:+} function {function}"))
}

fn or_none(start: &Option<u32>) -> String {
    start.map_or("none".to_string(), |start| start.to_string())
}

fn behind(then: &Then) -> String {
    match *then {
        Then::NoMask { signed, mask } => format!("24 signed {} mask {mask:016x}", u8::from(signed)),
        Then::Outside { base, offset, sum } => format!("25 base {base:016x} offset {offset:+} sum {}", summed(sum)),
        Then::TooLow { caller_sp, sp, first } => {
            format!("26 callersp {caller_sp:016x} sp {sp:016x} first {first:016x}")
        }
        Then::NoPlace { first } => format!("27 first {first:016x}"),
        Then::NotInside { word, cfa, offset, sum, stack, length } => {
            let word = match word {
                SavedWord::Ra => "ra",
                SavedWord::Fp => "fp",
            };
            let place = format!("cfa {cfa:016x} offset {offset:+} sum {}", summed(sum));
            format!("28 {word} {place} stack {stack:016x} length {length}")
        }
        Then::Caller { caller: Registers { pc, sp, fp, lr, first }, cfa, ra } => {
            format!("caller {pc:016x} {sp:016x} {fp:016x} {lr:016x} {first:016x} cfa {cfa:016x} ra {ra:016x}")
        }
    }
}

fn summed(sum: Sum) -> String {
    match sum {
        Sum::At(sum) => format!("at {sum:016x}"),
        Sum::Below(by) => format!("below {by}"),
        Sum::Above(by) => format!("above {by}"),
    }
}

#[cfg(test)]
mod tests {
    use super::*;
    use crate::cases::S;
    use crate::reader::{Base, Place, Row};

    const ROW: Row =
        Row { start: 4, base: Base::Fp, cfa_offset: 16, ra: Place::AtOffset(-8), fp: Place::Register, signed: true };
    const FOUND: FoundRow = FoundRow { function: 7, offset: 30, number: 1, row: ROW, next: Some(47) };
    const OF_FOUND: &str = "function 7 offset 30 row 1 start 4 cfa fp+16 ra cfa-8 fp register signed 1 next 47";

    #[test]
    fn a_record_is_ten_words_and_its_bytes() {
        let registers = Registers { pc: 1, sp: 2, fp: 3, lr: 4, first: 0x100 };
        let process = Process { section: u64::MAX, stack: 5, mask: 6 };
        let record = Record { section: vec![7, 8], stack: vec![9], process, registers };
        let mut records = Vec::new();
        record.put(&mut records);
        let words = [2, 1, u64::MAX, 5, 6, 1, 2, 3, 4, 0x100];
        assert_eq!(records, [&words.map(u64::to_le_bytes).concat()[..], &[7, 8, 9]].concat());
        assert_eq!(record.length(), records.len());
    }

    // K10 of document 01, and the same without a stack and without the mark.
    #[test]
    fn the_lines_of_a_record_are_its_lookup_and_its_step() {
        let mut stack = vec![0; 64];
        stack[..3].copy_from_slice(&[0x08, 0x10, 0x40]);
        let registers = Registers { pc: 0x40_1044, sp: 0x7000, fp: 0x7030, lr: 0, first: 1 };
        let process = Process { section: 0x40_0000, stack: 0x7000, mask: 0 };
        let record = Record { section: S.to_vec(), stack, process, registers };
        let row = "found function 1 offset 4 row 0 start 0 cfa sp+8 ra cfa-8 fp register signed 0 next none";
        let caller = "0000000000401008 0000000000007008 0000000000007030 0000000000000000 0000000000000000";
        let read = "cfa 0000000000007008 ra 0000000000401008";
        let step = format!("step at 0000000000401044 {row} then caller {caller} {read}\n");
        assert_eq!(record.lines(), format!("lookup {row}\n{step}"));
        let registers = Registers { first: 0, ..registers };
        let record = Record { stack: Vec::new(), registers, ..record };
        let row_before = row.replace("offset 4", "offset 3");
        let outside = "28 ra cfa 0000000000007008 offset -8 sum at 0000000000007000 stack 0000000000007000 length 0";
        let step = format!("step at 0000000000401043 {row_before} then {outside}\n");
        assert_eq!(record.lines(), format!("lookup {row}\n{step}"));
    }

    #[test]
    fn a_refused_section_is_its_number_and_index() {
        let refusal = Refusal { number: 13, index: 2 };
        assert_eq!(lookup_line(&LookupWhy::Unsound(refusal)), "lookup refused 13 at 2\n");
        assert_eq!(step_line(&StepWhy::Unsound(refusal)), "step refused 13 at 2\n");
    }

    #[test]
    fn a_row_is_told_with_the_next() {
        assert_eq!(lookup_line(&LookupWhy::Found(FOUND)), format!("lookup found {OF_FOUND}\n"));
        let last = FoundRow { next: None, ..FOUND };
        assert!(lookup_line(&LookupWhy::Found(last)).ends_with(" signed 1 next none\n"));
    }

    #[test]
    fn what_was_not_found_is_told_by_what_is_there() {
        let told = |why: Unfound| lookup_line(&LookupWhy::Unfound(why));
        let (low, high) = (Near { at: -5, function: 3 }, Near { at: 0, function: 12 });
        let between = Unfound::NoFunction { below: Some(low), above: Some(high) };
        assert_eq!(told(between.clone()), "lookup 21 below -5 function 3 above +0 function 12\n");
        let step = "step at 0000000000000010 21 below -5 function 3 above +0 function 12\n";
        assert_eq!(step_line(&StepWhy::Unfound { pc: 0x10, why: between }), step);
        let behind_all = Unfound::NoFunction { below: Some(Near { at: 31, function: 0 }), above: None };
        assert_eq!(told(behind_all), "lookup 21 below +31 function 0 above none\n");
        let none = Unfound::NoFunction { below: None, above: None };
        assert_eq!(told(none), "lookup 21 below none above none\n");
        assert_eq!(told(Unfound::Disputed { count: 20, first: vec![0, 2, 19] }), "lookup 22 covering 20: 0 2 19\n");
        let no_row = |first| told(Unfound::NoRow { function: 5, offset: 3, first });
        assert_eq!(no_row(Some(4)), "lookup 23 function 5 offset 3 first 4\n");
        assert_eq!(no_row(None), "lookup 23 function 5 offset 3 first none\n");
    }

    #[test]
    fn a_step_that_looks_nothing_up_says_so() {
        assert_eq!(step_line(&StepWhy::NothingAsked), "step 21 nothing asked\n");
        let past = StepWhy::PastTheEnd { stack: u64::MAX, length: 2 };
        assert_eq!(step_line(&past), "step 41 stack ffffffffffffffff length 2\n");
    }

    fn told(then: Then) -> String {
        let line = step_line(&StepWhy::Found { pc: 0x40_1044, found: FOUND, then });
        let begin = format!("step at 0000000000401044 found {OF_FOUND} then ");
        line.strip_prefix(&begin).unwrap_or_else(|| panic!("{line}")).to_string()
    }

    #[test]
    fn the_numbers_compared_are_told() {
        assert_eq!(told(Then::NoMask { signed: true, mask: 0 }), "24 signed 1 mask 0000000000000000\n");
        let low = Then::Outside { base: 16, offset: -24, sum: Sum::of(16, -24) };
        assert_eq!(told(low), "25 base 0000000000000010 offset -24 sum below 8\n");
        let high = Then::Outside { base: u64::MAX, offset: 8, sum: Sum::of(u64::MAX, 8) };
        assert_eq!(told(high), "25 base ffffffffffffffff offset +8 sum above 8\n");
        let too_low = Then::TooLow { caller_sp: 0x6ff8, sp: 0x7000, first: 9 };
        assert_eq!(told(too_low), "26 callersp 0000000000006ff8 sp 0000000000007000 first 0000000000000009\n");
        assert_eq!(told(Then::NoPlace { first: 0 }), "27 first 0000000000000000\n");
    }

    #[test]
    fn a_word_outside_the_window_is_told_by_its_place() {
        let outside = |word, cfa, offset| {
            let sum = Sum::of(cfa, offset);
            told(Then::NotInside { word, cfa, offset, sum, stack: 0x7000, length: 63 })
        };
        let window = "stack 0000000000007000 length 63";
        let ra = format!("28 ra cfa 0000000000007048 offset -8 sum at 0000000000007040 {window}\n");
        assert_eq!(outside(SavedWord::Ra, 0x7048, -8), ra);
        let fp = format!("28 fp cfa 0000000000000000 offset -16 sum below 16 {window}\n");
        assert_eq!(outside(SavedWord::Fp, 0, -16), fp);
        let far = format!("28 fp cfa ffffffffffffffff offset +1 sum above 1 {window}\n");
        assert_eq!(outside(SavedWord::Fp, u64::MAX, 1), far);
    }

    #[test]
    fn a_caller_is_told_with_cfa_and_ra_as_it_was_read() {
        let caller = Registers { pc: 0x40_1008, sp: 0x7010, fp: 1, lr: 2, first: 0 };
        let then = Then::Caller { caller, cfa: 0x7010, ra: 0x7f00_0000_0040_1008 };
        let registers = "0000000000401008 0000000000007010 0000000000000001 0000000000000002 0000000000000000";
        let expected = format!("caller {registers} cfa 0000000000007010 ra 7f00000000401008\n");
        assert_eq!(told(then), expected);
    }
}
