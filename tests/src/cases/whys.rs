//! Answers to be explained: named records, each a lookup and a step, with what must be said of both.
//!
//! They are stored for the program `reasons`. No explanation comes from the reader's own. The author states it, or it
//! follows from the definition in `obvious`, applied to the description that the section was built from.

mod asked;
mod callers;
mod covering;
mod nearest;
mod rows;
mod sums;
mod windows;

use super::walks::Stack;
use crate::maker::{Function, Machine, Section, Start, RELATIVE, SORTED};
use crate::obvious::{self, Meaning};
use crate::reader::{LookupWhy, Process, Registers, StepWhy, Unfound};
use crate::reasons::Record;
use crate::ADDRESS;
use std::fmt::Display;

/// A record, and what must be said of it.
#[derive(Debug)]
pub struct Why {
    pub name: String,
    pub record: Record,
    pub lookup: LookupWhy,
    pub step: StepWhy,
}

/// Every record, in the order in which they are stored.
pub fn whys() -> Vec<Why> {
    let groups =
        [nearest::all(), covering::all(), rows::all(), sums::all(), callers::all(), windows::all(), asked::all()];
    groups.into_iter().flatten().collect()
}

/// Marks that are not 0, by turns: every one of them is the mark.
const MARKS: [u64; 4] = [1, u64::MAX, 2, 1 << 32];

/// A section in which answers are explained.
struct Scene {
    name: String,
    section: Vec<u8>,
    meaning: Meaning,
}

impl Scene {
    fn of(name: impl Into<String>, section: &Section) -> Scene {
        Scene { name: name.into(), section: section.bytes(), meaning: Meaning::described(section) }
    }

    /// By the definition.
    fn why(&self, what: impl Display, process: Process, registers: Registers, stack: Vec<u8>) -> Why {
        Why {
            name: format!("{}_{what}", self.name),
            lookup: obvious::explain_lookup(&self.meaning, process.section, registers.pc),
            step: obvious::explain_step(&self.meaning, &stack, process, registers),
            record: Record { section: self.section.clone(), stack, process, registers },
        }
    }

    /// The same in a section at its usual place.
    fn from(&self, what: impl Display, registers: Registers, mask: u64, (address, stack): Stack) -> Why {
        self.why(what, Process { section: ADDRESS, stack: address, mask }, registers, stack)
    }

    /// A place of the section, looked up and stepped from with a mark, registers and stack being of no interest.
    fn at(&self, d: i128, first: u64) -> Why {
        let pc = (i128::from(ADDRESS) + d) as u64;
        let registers = Registers { pc, sp: 0x7000, fp: 0x7020, lr: 0x1111_2222_3333_4444, first };
        let mark = if first == 0 { "later" } else { "marked" };
        self.from(format!("{d:+}_{mark}"), registers, 0, (0x7000, (1..=64).collect()))
    }

    /// What is said of a place without a row, whether it is PC with a mark or the PC before.
    fn unfound(&self, d: i128, turn: usize, why: &Unfound) -> [Why; 2] {
        let (mut marked, mut later) = (self.at(d, MARKS[turn % MARKS.len()]), self.at(d + 1, 0));
        let pc = marked.record.registers.pc;
        marked.lookup = LookupWhy::Unfound(why.clone());
        marked.step = StepWhy::Unfound { pc, why: why.clone() };
        later.step = StepWhy::Unfound { pc, why: why.clone() };
        [marked, later]
    }
}

/// A section of these functions, by turns of another machine and with starts that are relative or not.
fn section_of(turn: usize, sorted: bool, functions: Vec<Function>) -> Section {
    let mut section = Section::new(Machine::ALL[turn % 3]);
    // No field that counts from itself reaches the lowest start.
    let lowest = functions.iter().any(|function| function.start == Start::Effective(i32::MIN.into()));
    let relative = turn % 2 == 1 && !lowest;
    section.flags = if sorted { SORTED } else { 0 } | if relative { RELATIVE } else { 0 };
    section.functions = functions;
    section
}

/// Bytes that all differ, so that a word shows where it was read.
fn bytes(address: u64, length: usize) -> Stack {
    (address, (1..=length).map(|number| number as u8).collect())
}

#[cfg(test)]
mod tests {
    use super::*;
    use crate::reader::{Base, SavedWord, Sum, Then};
    use crate::reasons::{Kind, EXPECTED_LIMIT, MOST_BYTES};
    use std::collections::{BTreeMap, BTreeSet};

    #[test]
    fn every_record_is_explained_as_stated_and_by_the_definition() {
        for Why { name, record, lookup, step } in whys() {
            let Record { section, stack, process, registers } = &record;
            assert_eq!(record.lookup(), lookup, "{name}: the author, of the lookup");
            assert_eq!(record.step(), step, "{name}: the author, of the step");
            let meaning = Meaning::read(section);
            let by_definition = obvious::explain_lookup(&meaning, process.section, registers.pc);
            assert_eq!(by_definition, lookup, "{name}: the definition, of the lookup");
            let by_definition = obvious::explain_step(&meaning, stack, *process, *registers);
            assert_eq!(by_definition, step, "{name}: the definition, of the step");
        }
    }

    #[test]
    fn names_and_records_differ() {
        let (mut names, mut records) = (BTreeSet::new(), BTreeSet::new());
        for Why { name, record, .. } in whys() {
            let mut packed = Vec::new();
            record.put(&mut packed);
            assert!(records.insert(packed), "{name} is the same record as another");
            let allowed = |sign: char| sign.is_ascii_alphanumeric() || "_+-".contains(sign);
            assert!(name.chars().all(allowed) && names.insert(name.clone()), "{name}");
        }
    }

    #[test]
    fn every_kind_comes_and_what_is_expected_is_not_too_long() {
        let whys = whys();
        let mut kinds: BTreeMap<Kind, usize> = BTreeMap::new();
        for why in &whys {
            let both = [Kind::of_lookup(&why.lookup), Kind::of_step(&why.step)];
            both.into_iter().for_each(|kind| *kinds.entry(kind).or_default() += 1);
        }
        println!("{} records: {kinds:?}", whys.len());
        assert_eq!(kinds.keys().copied().collect::<BTreeSet<_>>(), BTreeSet::from(Kind::ALL));
        assert!(kinds.values().all(|&count| count >= 5), "{kinds:?}");
        let text: usize = whys.iter().map(|why| why.record.lines().len()).sum();
        let packed: usize = whys.iter().map(|why| why.record.length()).sum();
        println!("{packed} bytes of records, {text} of lines");
        assert!(text < EXPECTED_LIMIT && packed < MOST_BYTES);
    }

    // 24 and 27 are given on AArch64 alone; 2 is longer than what is stored.
    #[test]
    fn every_number_comes_on_every_machine() {
        let mut seen: BTreeMap<u8, BTreeSet<u64>> = BTreeMap::new();
        let mut refused = BTreeSet::new();
        for why in whys() {
            let numbers = [why.lookup.number(), why.step.number()];
            if (1..=15).contains(&numbers[0]) {
                refused.insert(numbers[0]);
            } else {
                seen.entry(why.record.section[4]).or_default().extend(numbers);
            }
        }
        assert_eq!(refused, [1].into_iter().chain(3..=15).collect());
        let on_amd64 = BTreeSet::from([0, 21, 22, 23, 25, 26, 28, 41]);
        let on_aarch64: BTreeSet<u64> = on_amd64.iter().copied().chain([24, 27]).collect();
        assert_eq!(seen, BTreeMap::from([(1, on_aarch64.clone()), (2, on_aarch64), (3, on_amd64)]));
    }

    // Sums at 0 and 2^64 - 1 and one beyond each, of CFA and of the places of both words.
    #[test]
    fn sums_come_to_both_ends() {
        let (mut of_cfa, mut of_words) = (BTreeSet::new(), BTreeSet::new());
        for why in whys() {
            let StepWhy::Found { found, then, .. } = why.step else { continue };
            let told = |sum| match sum {
                Sum::Below(1) => "below 1",
                Sum::Above(1) => "above 1",
                Sum::Below(_) => "below",
                Sum::Above(_) => "above",
                Sum::At(0) => "0",
                Sum::At(u64::MAX) => "2^64 - 1",
                Sum::At(_) => "at",
            };
            match then {
                Then::Outside { sum, .. } => of_cfa.insert((found.row.base == Base::Sp, told(sum))),
                Then::NotInside { word, cfa, sum, .. } => {
                    of_cfa.insert((found.row.base == Base::Sp, told(Sum::At(cfa))));
                    of_words.insert((word == SavedWord::Ra, told(sum)))
                }
                _ => false,
            };
        }
        let all = ["0", "2^64 - 1", "above", "above 1", "at", "below", "below 1"];
        for sum in all {
            assert!(of_cfa.contains(&(true, sum)) && of_cfa.contains(&(false, sum)), "CFA, {sum}: {of_cfa:?}");
            assert!(of_words.contains(&(false, sum)) && of_words.contains(&(true, sum)), "{sum}: {of_words:?}");
        }
    }
}
