//! One address asked of a section that is not checked, straight from the request's words, slowly: numbers are put
//! together byte by byte, the halving rule is a recursion, and a function obeys 9 to 13 where a section of it alone is
//! accepted.
//!
//! Nothing is shared with the reader's own way to ask but the types of the answers.

use super::{covers, in_function};
use crate::maker::{RELATIVE, SORTED};
use crate::reader::{self, Asked, AskedOutcome, Block, Function, Outcome, Verdict};

const HEADER: usize = 28;
const ENTRY: usize = 20;

/// The answer for a section as it stands, refused or not.
pub fn ask(section: &[u8], address: u64, pc: u64) -> Asked {
    // "Header faults answer 1 to 8, and then a section without the sorted flag 45, all with count 0."
    if let Verdict::Refused { number: number @ 1..=8, .. } = reader::check(section) {
        return Asked { outcome: AskedOutcome::Unsound(number), compared: 0 };
    }
    if section[3] & SORTED == 0 {
        return Asked { outcome: AskedOutcome::Unsorted, compared: 0 };
    }
    let d = i128::from(pc) - i128::from(address);
    let (low, compared) = halved(section, d, 0, number_at(section, 8, 4) as usize);
    // "the one function it lands on (entry low - 1, if low ended above 0)".
    let outcome = if low == 0 { AskedOutcome::NoFunction } else { landed_on(section, low - 1, d) };
    Asked { outcome, compared }
}

// Where low ends, and how many entries were compared from here on.
fn halved(section: &[u8], d: i128, low: usize, high: usize) -> (usize, u64) {
    if low >= high {
        return (low, 0);
    }
    let middle = (low + high) / 2;
    let (low, high) = if start_of(section, middle) <= d { (middle + 1, high) } else { (low, middle) };
    let (end, compared) = halved(section, d, low, high);
    (end, 1 + compared)
}

// "If the function landed on covers d and breaks 9 to 13, it answers 44 with its index and the count. Otherwise it
// answers 21, 23 or the row by the usual rules".
fn landed_on(section: &[u8], index: usize, d: i128) -> AskedOutcome {
    let (start, size) = (start_of(section, index), number_at(section, entry_at(section, index) + 4, 4));
    let bare = Function { start: start as i64, size: size as u32, block: Block::Plain, rows: Vec::new() };
    if !covers(&bare, d) {
        return AskedOutcome::NoFunction;
    }
    let alone = alone(section, index);
    if reader::check(&alone) != Verdict::Accepted {
        return AskedOutcome::Damaged { function: index as u64 };
    }
    let [meant] = &reader::functions(&alone)[..] else { unreachable!("the section has one function") };
    let placed = Function { start: bare.start, ..meant.clone() };
    match in_function(index as u64, &placed, d) {
        Outcome::Found { function, number, row } => AskedOutcome::Found { function, number, row },
        Outcome::NoRow { function } => AskedOutcome::NoRow { function },
        other => unreachable!("a function that covers has a row or none: {other:?}"),
    }
}

// The section with this entry alone, unsorted and with a true header, so that of 9 to 15 only what the entry breaks of
// 9 to 13 can refuse it. Its start counts for nothing in them.
fn alone(section: &[u8], index: usize) -> Vec<u8> {
    let (at, rows_at) = (entry_at(section, index), entry_at(section, number_at(section, 8, 4) as usize));
    let header = &section[..entry_at(section, 0)];
    let mut alone = [header, &section[at..at + ENTRY], &section[rows_at..]].concat();
    alone[3] = 0;
    let fields = [(8, 1), (12, number_at(section, at + 12, 4)), (24, ENTRY as i128)];
    for (place, number) in fields {
        let little = (number as u32).to_le_bytes();
        let bytes = if is_big(section) { little.into_iter().rev().collect() } else { little.to_vec() };
        alone[place..place + 4].copy_from_slice(&bytes);
    }
    alone
}

fn is_big(section: &[u8]) -> bool {
    section[0] == 0xde
}

fn entry_at(section: &[u8], index: usize) -> usize {
    HEADER + usize::from(section[7]) + ENTRY * index
}

// "the start field, plus the field's own position in the section when flag 0x4 is set".
fn start_of(section: &[u8], index: usize) -> i128 {
    let at = entry_at(section, index);
    let unsigned = number_at(section, at, 4);
    let field = if unsigned < 1 << 31 { unsigned } else { unsigned - (1 << 32) };
    field + if section[3] & RELATIVE == 0 { 0 } else { at as i128 }
}

fn number_at(section: &[u8], at: usize, width: usize) -> i128 {
    let bytes = section[at..at + width].iter();
    let highest_first: Vec<&u8> = if is_big(section) { bytes.collect() } else { bytes.rev().collect() };
    highest_first.into_iter().fold(0, |number, &byte| number * 256 + i128::from(byte))
}

#[cfg(test)]
mod tests {
    use super::*;
    use crate::cases::{self, S};
    use crate::stream::{self, Random};

    #[test]
    fn a_function_alone_is_what_it_was() {
        for index in [0, 1] {
            let alone = reader::functions(&alone(&S, index));
            assert_eq!(alone, reader::functions(&S)[index..=index]);
        }
        let mut twice = S;
        twice[71] = 0;
        assert_eq!(reader::check(&alone(&twice, 0)), Verdict::Refused { number: 13, index: 0 });
        assert_eq!(reader::check(&alone(&twice, 1)), Verdict::Accepted);
    }

    // The rule that a section as a whole was refused by is that of one of its functions alone, or 14 or 15.
    #[test]
    fn what_refuses_a_section_refuses_its_function_alone() {
        for case in cases::all() {
            if let Verdict::Refused { number: number @ 9..=13, index } = case.expected {
                let refused = reader::check(&alone(&case.section, index as usize));
                assert_eq!(refused, Verdict::Refused { number, index: 0 }, "{}", case.name);
            }
        }
    }

    #[test]
    fn every_stored_question_is_answered_as_by_the_reader() {
        let mut asked = 0;
        for case in cases::all() {
            for question in &case.questions {
                let (address, pc) = (question.address, question.pc);
                let by_reader = reader::ask(&case.section, address, pc);
                assert_eq!(ask(&case.section, address, pc), by_reader, "{} at {address:x}, PC {pc:x}", case.name);
                asked += 1;
            }
        }
        assert!(asked > 4_000, "{asked} questions");
    }

    #[test]
    fn generated_sections_are_answered_as_by_the_reader() {
        let random = &mut Random::new(20_261_101);
        for turn in 0..20_000 {
            let section = stream::section(random);
            for (address, pc) in stream::questions(random, &section) {
                let by_reader = reader::ask(&section, address, pc);
                assert_eq!(ask(&section, address, pc), by_reader, "section {turn}, {address:x}, PC {pc:x}");
            }
        }
    }
}
