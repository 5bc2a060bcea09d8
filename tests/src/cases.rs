//! The named cases: sections in a fixed order, each with the verdict that document 01 gives it, and lookups and walks
//! to be made in it. Where a lookup is made, the same is asked without a check of the whole section.
//!
//! A verdict stands as a literal beside the construction of its section; it is what the author reads in document 01,
//! not what the reader answers. A name begins with the number expected, or with `ok` where the section is accepted.
//! What is too large to be stored is in `large`.

mod asked;
mod blocks;
mod cfa;
mod chains;
mod corpus;
mod corpus_walks;
mod counts;
mod depths;
mod document;
mod entries;
mod far;
mod forms;
mod harmless;
mod header;
mod last_calls;
mod limits;
mod link_register;
mod marks;
mod overlaps;
mod precedence;
pub(crate) mod questions;
mod recorded;
mod relative;
mod rows;
mod runs;
pub(crate) mod signed;
mod sizes;
mod starts;
mod step_order;
mod twins;
pub(crate) mod walks;
mod whys;
mod windows;

pub use corpus::{corpus_section, CORPUS, CORPUS_VERDICTS};
pub use document::S;
pub use questions::Question;
pub use recorded::{LAST_CALL_RUNS, SIGNED_SECTIONS};
pub use whys::{whys, Why};

use crate::maker::{Function, Machine, Row, Section, SORTED};
use crate::reader::{Asked, Header, Verdict};
use crate::ADDRESS;
use questions::{asked_by_rule, at_edges, section_refused};
use std::collections::{BTreeMap, BTreeSet};
use walks::Expected;

pub struct Case {
    pub name: String,
    pub section: Vec<u8>,
    pub expected: Verdict,
    pub questions: Vec<Question>,
    pub walks: Vec<Expected>,
}

impl Case {
    /// A case of which nothing is asked but the verdict.
    pub fn new(name: impl Into<String>, section: Vec<u8>, expected: Verdict) -> Case {
        Case { name: name.into(), section, expected, questions: Vec::new(), walks: Vec::new() }
    }

    /// The same, and these questions.
    pub fn asked(mut self, questions: Vec<Question>) -> Case {
        self.questions.extend(questions);
        self
    }

    /// What asking without a check of the whole section answers to one of the questions.
    pub fn asked_of(&self, question: &Question) -> Asked {
        question.asked.unwrap_or_else(|| asked_by_rule(&self.section, self.expected, question))
    }

    /// The same, and these walks.
    pub fn walked(mut self, walks: Vec<Expected>) -> Case {
        self.walks.extend(walks);
        self
    }
}

/// The indexes at which a section is asked for its functions: the first three, the last two, those behind them, and
/// some that only fewer bits would take for one of these.
pub fn indexes(section: &[u8]) -> BTreeSet<u64> {
    let count = Header::read(section).map_or(0, |header| u64::from(header.functions));
    let near = [0, 1, 2, count.saturating_sub(2), count.saturating_sub(1), count, count + 1];
    let far = [1 << 32, (1 << 32) + 1, 1 << 63, u64::MAX];
    near.into_iter().chain(far).collect()
}

const ACCEPTED: Verdict = Verdict::Accepted;

const fn refused(number: u64, index: u64) -> Verdict {
    Verdict::Refused { number, index }
}

fn case(name: impl Into<String>, section: &Section, expected: Verdict) -> Case {
    Case::new(name, section.bytes(), expected)
}

// An accepted section, asked at every edge of its functions and rows.
fn asked_at_edges(name: impl Into<String>, section: &Section) -> Case {
    case(name, section, ACCEPTED).asked(at_edges(section, ADDRESS))
}

// In the order in which they are stored.
fn groups() -> Vec<Vec<Case>> {
    vec![
        document::all(),
        corpus::all(),
        header::all(),
        entries::all(),
        rows::all(),
        starts::all(),
        harmless::all(),
        precedence::all(),
        forms::all(),
        sizes::all(),
        blocks::all(),
        relative::all(),
        overlaps::all(),
        far::all(),
        twins::all(),
        counts::all(),
        cfa::all(),
        windows::all(),
        link_register::all(),
        marks::all(),
        step_order::all(),
        limits::all(),
        depths::all(),
        chains::all(),
        recorded::all(),
        runs::all(),
        last_calls::all(),
        chains::returned(),
        recorded::last_calls(),
        signed::all(),
        corpus_walks::signed(),
        recorded::signed(),
        recorded::on_aarch64(),
    ]
}

/// Every case, in the order in which they are stored.
pub fn all() -> Vec<Case> {
    let mut cases: Vec<Case> = groups().into_iter().flatten().collect();
    ask_of_refused(&mut cases);
    walk_in_refused(&mut cases);
    // Of these everything is stated.
    cases.extend(asked::all());
    cases.extend(limits::usual());
    cases
}

// The first case of every number and index is asked too: at a PC that the sound section covers, and at one far away.
fn ask_of_refused(cases: &mut [Case]) {
    let mut asked = BTreeSet::new();
    for case in cases {
        if let Verdict::Refused { number, index } = case.expected {
            if asked.insert((number, index)) {
                let expected = section_refused(number, index);
                let ask = |(address, pc)| Question { address, pc, expected, asked: None };
                case.questions.extend([(0x40_0000, 0x40_1204), (u64::MAX, 0)].map(ask));
            }
        }
    }
}

// Walks in the first two cases of every number and the first of every number and index: the section's refusal comes
// before whatever a step would say, and behind 41, and for a trace behind 42 and 43.
fn walk_in_refused(cases: &mut [Case]) {
    let (mut walked, mut times) = (BTreeSet::new(), BTreeMap::<u64, u32>::new());
    for case in cases {
        if let Verdict::Refused { number, index } = case.expected {
            let before = times.get(&number).copied().unwrap_or(0);
            if walked.insert((number, index)) || before < 2 {
                times.insert(number, before + 1);
                case.walks.extend(walks::in_refused(number, index, before == 0));
            }
        }
    }
}

/// The first, a middle and the last of four entries or rows.
const FIRST_MIDDLE_LAST: [usize; 3] = [0, 2, 3];

/// The same where the rule compares with the one before, so that it cannot be broken at the first.
const SECOND_MIDDLE_LAST: [usize; 3] = [1, 2, 3];

/// A sound sorted section of four adjoining functions with four rows each, of every width, from which the cases are
/// made by damage.
fn sound(machine: Machine) -> Section {
    let function = |index: u8| {
        let rows = (0..4).map(|row| sound_row(machine, index, row)).collect();
        Function::new(0x1000 + 0x100 * i64::from(index), 0x100, index % 3, rows)
    };
    let mut section = Section::new(machine);
    section.flags = SORTED;
    section.functions = (0..4).map(function).collect();
    section
}

/// A function with a row at each of these starts, of the narrowest type that holds them. Rows of functions with
/// different tags are different.
fn function_at(tag: i32, start: i64, size: u32, starts: &[u32]) -> Function {
    let row_type = match starts.last() {
        None | Some(0..=0xff) => 0,
        Some(0x100..=0xffff) => 1,
        Some(_) => 2,
    };
    let row = |(&start, number): (&u32, i32)| {
        let offsets = [100 * tag + 8 * number, -8 * number - 16];
        Row::new(start, 1, &offsets[..if number % 2 == 0 { 1 } else { 2 }])
    };
    Function::new(start, size, row_type, starts.iter().zip(0..).map(row).collect())
}

fn sound_row(machine: Machine, function: u8, row: u8) -> Row {
    let offsets = [16, -8, -16];
    let count = 1 + (row + function) % machine.most_offsets();
    let start = u32::from(row) * 4 + u32::from(function);
    let mut sound = Row::new(start, (row + function) % 3, &offsets[..usize::from(count)]);
    sound.sp_base = row != 2;
    sound.signed = row == 1;
    sound
}

#[cfg(test)]
mod tests {
    use super::*;
    use crate::obvious::Meaning;
    use crate::{in_repository, obvious, pack, reader};
    use std::fs;

    #[test]
    fn names_differ_and_say_what_is_expected() {
        let mut seen = BTreeSet::new();
        let document_or_corpus = document::all().len() + CORPUS_VERDICTS.len();
        for (place, case) in all().into_iter().enumerate() {
            assert!(pack::is_name(&case.name), "{}", case.name);
            let begin = match case.expected {
                Verdict::Accepted => "ok_".to_string(),
                Verdict::Refused { number, .. } => format!("{number}_"),
            };
            let says = case.name.starts_with(&begin) || place < document_or_corpus;
            assert!(says, "{} expects {}", case.name, case.expected);
            assert!(seen.insert(case.name.clone()), "{} twice", case.name);
        }
    }

    #[test]
    fn every_question_is_answered_as_stated_and_by_the_definition() {
        for case in all() {
            for question @ &Question { address, pc, expected, .. } in &case.questions {
                let asked = format!("{} at {address:x}, PC {pc:x}", case.name);
                assert_eq!(reader::lookup(&case.section, address, pc), expected, "{asked}: the author");
                assert_eq!(obvious::lookup(&case.section, address, pc), expected, "{asked}: the definition");
                let expected = case.asked_of(question);
                assert_eq!(reader::ask(&case.section, address, pc), expected, "{asked}: the author, asked alone");
                assert_eq!(obvious::ask(&case.section, address, pc), expected, "{asked}: the definition, asked alone");
            }
        }
    }

    #[test]
    fn every_answer_comes_often() {
        let mut counts: BTreeMap<u64, usize> = BTreeMap::new();
        let mut seen = BTreeSet::new();
        for case in all() {
            for question in &case.questions {
                *counts.entry(question.expected.refusal()).or_default() += 1;
                let new = seen.insert((case.name.clone(), question.address, question.pc));
                assert!(new, "{} is asked twice at {:x}, PC {:x}", case.name, question.address, question.pc);
            }
        }
        println!("how often each number is answered (0: found): {counts:?}");
        let numbers: Vec<u64> = counts.keys().copied().collect();
        assert_eq!(numbers, [&[0, 1][..], &Vec::from_iter(3..=15), &[21, 22, 23]].concat());
        for (number, count) in counts {
            let enough = if (1..=15).contains(&number) { 2 } else { 50 };
            assert!(count >= enough, "{number} is answered {count} times");
        }
    }

    // 2 is longer than what is stored.
    #[test]
    fn every_answer_to_one_address_comes_often() {
        let mut counts: BTreeMap<u64, usize> = BTreeMap::new();
        for case in all() {
            for question in &case.questions {
                *counts.entry(case.asked_of(question).refusal()).or_default() += 1;
            }
        }
        println!("how often each number is answered to one address (0: found): {counts:?}");
        let numbers: Vec<u64> = counts.keys().copied().collect();
        assert_eq!(numbers, [0, 1, 3, 4, 5, 6, 7, 8, 21, 23, 44, 45]);
        for (number, count) in counts {
            let enough = if (1..=8).contains(&number) { 5 } else { 100 };
            assert!(count >= enough, "{number} is answered {count} times");
        }
    }

    #[test]
    fn what_is_asked_in_the_cases_for_it_is_stated() {
        let questions: Vec<Question> = asked::all().into_iter().flat_map(|case| case.questions).collect();
        assert!(questions.len() > 1_000 && questions.iter().all(|question| question.asked.is_some()));
    }

    #[test]
    fn every_walk_comes_to_what_is_stated_and_by_the_definition() {
        for case in all() {
            let meaning = Meaning::read(&case.section);
            for (walk, expected) in &case.walks {
                assert_eq!(walk.by_reader(&case.section), *expected, "{}, {walk:x?}: the author", case.name);
                assert_eq!(walk.by_definition(&meaning), *expected, "{}, {walk:x?}: the definition", case.name);
            }
        }
    }

    #[test]
    fn every_number_ends_steps_and_traces() {
        let mut steps: BTreeMap<u64, usize> = BTreeMap::new();
        let mut traces: BTreeMap<u64, usize> = BTreeMap::new();
        for case in all() {
            for (place, (walk, walked)) in case.walks.iter().enumerate() {
                *steps.entry(walked.step.number()).or_default() += 1;
                *traces.entry(walked.traced.ending.number()).or_default() += 1;
                assert!(walk.words <= pack::MOST_WORDS);
                let again = case.walks[..place].iter().any(|(before, _)| before == walk);
                assert!(!again, "{} has a walk twice: {walk:x?}", case.name);
            }
        }
        println!("how often each number ends a step (0: a caller): {steps:?}");
        println!("how often each number ends a trace: {traces:?}");
        let sections = [1].into_iter().chain(3..=15);
        for number in sections.clone().chain(21..=28).chain([0, 41]) {
            assert!(steps.get(&number).is_some_and(|&count| count >= 2), "{number} ends steps: {steps:?}");
        }
        for number in sections.chain(21..=28).chain([30, 31, 41, 42, 43]) {
            assert!(traces.get(&number).is_some_and(|&count| count >= 2), "{number} ends traces: {traces:?}");
        }
    }

    // By ABI: 1 and 2 are AArch64, where 24 and 27 can come too; 3 is AMD64.
    #[test]
    fn every_number_ends_walks_on_every_machine() {
        let mut seen: BTreeMap<u8, BTreeSet<u64>> = BTreeMap::new();
        for case in all().iter().filter(|case| case.expected == ACCEPTED) {
            for (_, walked) in &case.walks {
                seen.entry(case.section[4]).or_default().extend([walked.step.number(), walked.traced.ending.number()]);
            }
        }
        let on_amd64 = BTreeSet::from([0, 21, 22, 23, 25, 26, 28, 30, 31, 41, 42, 43]);
        let on_aarch64: BTreeSet<u64> = on_amd64.iter().copied().chain([24, 27]).collect();
        assert_eq!(seen, BTreeMap::from([(1, on_aarch64.clone()), (2, on_aarch64), (3, on_amd64)]));
    }

    #[test]
    fn every_number_stands_at_every_place_that_it_can() {
        let mut places: BTreeMap<u64, BTreeSet<u64>> = BTreeMap::new();
        for case in all() {
            if let Verdict::Refused { number, index } = case.expected {
                places.entry(number).or_default().insert(index);
            }
        }
        let numbers: Vec<u64> = places.keys().copied().collect();
        assert_eq!(numbers, [&[1][..], &Vec::from_iter(3..=15)].concat());
        for number in 9..=13 {
            assert!(places[&number].is_superset(&BTreeSet::from([0, 2, 3])));
        }
        assert!(places[&14].is_superset(&BTreeSet::from([1, 2, 3])));
        for number in [1, 3, 4, 5, 6, 7, 8, 15] {
            assert_eq!(places[&number], BTreeSet::from([0]));
        }
    }

    #[test]
    fn the_corpus_table_names_every_section_of_the_folder() {
        let files = fs::read_dir(in_repository(CORPUS)).expect("the corpus is there");
        let names = files.map(|file| file.expect("a file").file_name().into_string().unwrap());
        let found: BTreeSet<String> =
            names.filter_map(|name| name.strip_suffix(".sframe").map(str::to_string)).collect();
        let listed = CORPUS_VERDICTS.map(|(name, _)| name.to_string());
        assert_eq!(found, BTreeSet::from(listed));
    }
}
