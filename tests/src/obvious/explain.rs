//! Why a lookup and a step come to their answers, straight from the request's words, slowly: the answer is that of the
//! definition, and what is said of it is looked for in whole lists of addresses, functions and rows.
//!
//! Nothing is shared with the reader's own explanations but their types.

use super::walk::{step, word_at, Meaning};
use super::{answer, covers};
use crate::reader::{
    Base, Block, FoundRow, Function, LookupWhy, Near, Outcome, Place, Process, Refusal, Registers, SavedWord, Step,
    StepWhy, Sum, Then, Unfound, Verdict,
};

const HIGHEST: i128 = (1 << 64) - 1;

/// Why a lookup comes to the definition's answer.
pub fn explain_lookup(meaning: &Meaning, address: u64, pc: u64) -> LookupWhy {
    if let Verdict::Refused { number, index } = meaning.verdict {
        return LookupWhy::Unsound(Refusal { number, index });
    }
    match explain(meaning, address, pc) {
        Ok(found) => LookupWhy::Found(found),
        Err(why) => LookupWhy::Unfound(why),
    }
}

fn explain(meaning: &Meaning, address: u64, pc: u64) -> Result<FoundRow, Unfound> {
    let (functions, d) = (&meaning.functions, i128::from(pc) - i128::from(address));
    match answer(meaning.sorted, functions, address, pc).outcome {
        Outcome::Found { function, number, row } => {
            let following = functions[function as usize].rows.iter().skip(number as usize + 1);
            let next = following.map(|row| row.start).next();
            Ok(FoundRow { function, offset: offset_used(&functions[function as usize], d), number, row, next })
        }
        Outcome::NoFunction => Err(Unfound::NoFunction { below: below(functions, d), above: above(functions, d) }),
        Outcome::Disputed { .. } => {
            let all = covering(functions, d);
            Err(Unfound::Disputed { count: all.len() as u64, first: all[..all.len().min(16)].to_vec() })
        }
        Outcome::NoRow { function } => {
            let covering = &functions[function as usize];
            let first = covering.rows.iter().map(|row| row.start).min();
            Err(Unfound::NoRow { function, offset: offset_used(covering, d), first })
        }
        Outcome::SectionRefused { .. } => unreachable!("an accepted section is not refused"),
    }
}

fn covering(functions: &[Function], d: i128) -> Vec<u64> {
    functions.iter().zip(0..).filter(|(function, _)| covers(function, d)).map(|(_, index)| index).collect()
}

// "the offset used": in repeated blocks, whole blocks are taken away until less than one is left.
fn offset_used(function: &Function, d: i128) -> u32 {
    let mut offset = (d - i128::from(function.start)) as u32;
    if let Block::Repeated(size) = function.block {
        offset -= offset / u32::from(size) * u32::from(size);
    }
    offset
}

// "the covered address nearest below PC and the nearest above, each with its function (lowest index on a tie)". No
// function covers the PC, so that the nearest below is the last address of some function, and the nearest above the
// first of some.
fn below(functions: &[Function], d: i128) -> Option<Near> {
    let lasts = functions.iter().map(|function| i128::from(function.start) + i128::from(function.size) - 1);
    near(functions, lasts.filter(|&at| at < d && !covering(functions, at).is_empty()).max())
}

fn above(functions: &[Function], d: i128) -> Option<Near> {
    let firsts = functions.iter().map(|function| i128::from(function.start));
    near(functions, firsts.filter(|&at| at > d && !covering(functions, at).is_empty()).min())
}

fn near(functions: &[Function], at: Option<i128>) -> Option<Near> {
    at.map(|at| Near { at: at as i64, function: covering(functions, at)[0] })
}

/// Why a step comes to the definition's answer.
pub fn explain_step(meaning: &Meaning, stack: &[u8], process: Process, registers: Registers) -> StepWhy {
    let step = step(meaning, stack, process, registers);
    let pc = match (step, registers) {
        (Step::Refused { number: 41, .. }, _) => {
            return StepWhy::PastTheEnd { stack: process.stack, length: stack.len() as u64 };
        }
        (Step::Unsound { number, index, .. }, _) => return StepWhy::Unsound(Refusal { number, index }),
        (_, Registers { pc: 0, first: 0, .. }) => return StepWhy::NothingAsked,
        (_, Registers { pc, first: 0, .. }) => pc - 1,
        (_, Registers { pc, .. }) => pc,
    };
    match explain(meaning, process.section, pc) {
        Ok(found) => {
            let then = Behind { meaning, stack, process, registers, found }.then(&step);
            StepWhy::Found { pc, found, then }
        }
        Err(why) => StepWhy::Unfound { pc, why },
    }
}

/// A step behind its row.
struct Behind<'a> {
    meaning: &'a Meaning,
    stack: &'a [u8],
    process: Process,
    registers: Registers,
    found: FoundRow,
}

impl Behind<'_> {
    // The numbers that the rule of this answer compares.
    fn then(&self, step: &Step) -> Then {
        let Registers { sp, fp, lr, first, .. } = self.registers;
        let row = self.found.row;
        let (base, offset) = (if row.base == Base::Sp { sp } else { fp }, row.cfa_offset);
        let cfa = i128::from(base) + i128::from(offset);
        match *step {
            Step::Caller(caller) => {
                let ra = self.word(row.ra, cfa).map_or(lr, |word| word.expect("RA's word was read"));
                Then::Caller { caller, cfa: caller.sp, ra }
            }
            Step::Refused { number: 24, .. } => Then::NoMask { signed: row.signed, mask: self.process.mask },
            Step::Refused { number: 25, .. } => Then::Outside { base, offset, sum: sum(base, offset) },
            Step::Refused { number: 26, .. } => Then::TooLow { caller_sp: cfa as u64, sp, first },
            Step::Refused { number: 27, .. } => Then::NoPlace { first },
            _ => self.not_inside(cfa),
        }
    }

    // None where a value stayed in its register, and no word where it is outside the window.
    fn word(&self, place: Place, cfa: i128) -> Option<Option<u64>> {
        match place {
            Place::Register => None,
            Place::AtOffset(offset) => {
                Some(word_at(self.meaning.big, self.stack, self.process, cfa + i128::from(offset)))
            }
        }
    }

    fn not_inside(&self, cfa: i128) -> Then {
        let words = [(SavedWord::Ra, self.found.row.ra), (SavedWord::Fp, self.found.row.fp)];
        let outside = words.into_iter().find(|(_, place)| self.word(*place, cfa) == Some(None));
        let Some((word, Place::AtOffset(offset))) = outside else { unreachable!("a word is outside the window") };
        let (stack, length) = (self.process.stack, self.stack.len() as u64);
        Then::NotInside { word, cfa: cfa as u64, offset, sum: sum(cfa as u64, offset), stack, length }
    }
}

fn sum(address: u64, offset: i64) -> Sum {
    match i128::from(address) + i128::from(offset) {
        exact if exact < 0 => Sum::Below((-exact) as u64),
        exact if exact > HIGHEST => Sum::Above((exact - HIGHEST) as u64),
        exact => Sum::At(exact as u64),
    }
}

#[cfg(test)]
mod tests {
    use super::*;
    use crate::maker::{self, Machine, Section};
    use crate::obvious::described;
    use crate::stream::{self, Random};
    use crate::{cases, reader, ADDRESS};

    // A few functions close together, some of size 0 and some of repeated blocks.
    fn small(random: &mut Random) -> Section {
        let mut section = Section::new(Machine::ALL[random.below(3) as usize]);
        section.flags = 4 * random.below(2) as u8;
        let most = if random.below(8) == 0 { 40 } else { 6 };
        for _ in 0..random.below(most) {
            let starts: Vec<u32> = (0..random.below(4) as u32).map(|row| 3 * row + random.below(3) as u32).collect();
            let rows = starts.into_iter().map(|start| maker::Row::new(start, 0, &[8])).collect();
            let size = random.below(20).saturating_sub(4) as u32;
            let mut function = maker::Function::new(random.below(60) as i64 - 30, size, 0, rows);
            (function.repeated, function.repeat) = (random.below(4) == 0, 1 + random.below(6) as u8);
            section.functions.push(function);
        }
        section
    }

    // The nearest place that is covered, place after place; none where no function of a small section is left.
    fn place_after_place(functions: &[Function], mut places: impl Iterator<Item = i128>) -> Option<Near> {
        near(functions, places.find(|&at| functions.iter().any(|function| covers(function, at))))
    }

    #[test]
    fn the_nearest_places_are_those_that_come_first() {
        let (mut random, mut compared) = (Random::new(20_261_102), 0);
        for turn in 0..2_000 {
            let section = small(&mut random);
            let (bytes, functions) = (section.bytes(), described(&section));
            for d in -40..60 {
                let why = reader::explain_lookup(&bytes, ADDRESS, ADDRESS.wrapping_add_signed(d as i64));
                if let LookupWhy::Unfound(Unfound::NoFunction { below, above }) = why {
                    let nearest = [(-80..d).rev().collect::<Vec<_>>(), (d + 1..120).collect()]
                        .map(|places| place_after_place(&functions, places.into_iter()));
                    assert_eq!([below, above], nearest, "turn {turn}, {d}: {section:?}");
                    compared += 1;
                }
            }
        }
        assert!(compared > 50_000, "{compared} times");
    }

    #[test]
    fn small_sections_are_explained_as_by_the_reader() {
        let random = &mut Random::new(20_261_103);
        for turn in 0..5_000 {
            let section = small(random);
            let (bytes, meaning) = (section.bytes(), Meaning::described(&section));
            for d in -40..60 {
                let pc = ADDRESS.wrapping_add_signed(d);
                let by_reader = reader::explain_lookup(&bytes, ADDRESS, pc);
                assert_eq!(explain_lookup(&meaning, ADDRESS, pc), by_reader, "turn {turn}, {d}: {section:?}");
            }
        }
    }

    #[test]
    fn every_stored_case_is_explained_as_by_the_reader() {
        for case in cases::all() {
            let (section, meaning) = (&case.section, Meaning::read(&case.section));
            for asked in &case.questions {
                let by_reader = reader::explain_lookup(section, asked.address, asked.pc);
                let expected = explain_lookup(&meaning, asked.address, asked.pc);
                assert_eq!(by_reader, expected, "{} at {:x}, PC {:x}", case.name, asked.address, asked.pc);
                assert_eq!(by_reader.number(), asked.expected.refusal(), "{}", case.name);
            }
            for (walk, walked) in &case.walks {
                let by_reader = reader::explain_step(section, &walk.stack, walk.process, walk.registers);
                let expected = explain_step(&meaning, &walk.stack, walk.process, walk.registers);
                assert_eq!(by_reader, expected, "{}, {walk:x?}", case.name);
                assert_eq!(by_reader.number(), walked.step.number(), "{}, {walk:x?}", case.name);
            }
        }
    }

    #[test]
    fn generated_sections_are_explained_as_by_the_reader() {
        let random = &mut Random::new(20_261_104);
        for turn in 0..5_000 {
            let section = if turn % 2 == 0 { stream::section(random) } else { stream::walkable(random) };
            let meaning = Meaning::read(&section);
            for (address, pc) in stream::questions(random, &section) {
                let by_reader = reader::explain_lookup(&section, address, pc);
                assert_eq!(explain_lookup(&meaning, address, pc), by_reader, "section {turn}, {address:x}, PC {pc:x}");
            }
            for walk in stream::walks(random, &section) {
                let by_reader = reader::explain_step(&section, &walk.stack, walk.process, walk.registers);
                let expected = explain_step(&meaning, &walk.stack, walk.process, walk.registers);
                assert_eq!(expected, by_reader, "section {turn}, {walk:x?}");
            }
        }
    }
}
