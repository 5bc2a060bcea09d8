//! Questions: lookups to be made in a case's section, and the ways to state their answers.
//!
//! No answer comes from the reader's lookups. The author states it whole, or which function and row it is while the
//! description of the section says what stands in that row, or it follows from the definition in `obvious`. The same
//! place is also asked without a check of the whole section; what that answers is stated, or follows from the lookup's.

use crate::maker::{Section, SORTED};
use crate::obvious::{self, described};
use crate::reader::{Answer, Asked, AskedOutcome, Block, Function, Outcome, Row, Verdict};
use std::collections::BTreeSet;

#[derive(Clone, Copy, Debug)]
pub struct Question {
    /// Where the section is loaded.
    pub address: u64,
    pub pc: u64,
    pub expected: Answer,
    /// What asking without a check of the whole section answers; none where that follows from the rest.
    pub asked: Option<Asked>,
}

/// What it answers by the request where the author of a section with this verdict states no more than the lookup: on an
/// accepted sorted section the same, by its header 1 to 8 or 45, and on any other what the definition says.
///
/// # Panics
/// Where the lookup's answer is none of a sorted section.
pub(super) fn asked_by_rule(section: &[u8], verdict: Verdict, question: &Question) -> Asked {
    let nothing_compared = |outcome| Asked { outcome, compared: 0 };
    let Answer { outcome, compared } = question.expected;
    match verdict {
        Verdict::Refused { number: number @ 1..=8, .. } => nothing_compared(AskedOutcome::Unsound(number)),
        _ if section[3] & SORTED == 0 => nothing_compared(AskedOutcome::Unsorted),
        Verdict::Refused { .. } => obvious::ask(section, question.address, question.pc),
        Verdict::Accepted => Asked { outcome: of_sorted(outcome), compared },
    }
}

fn of_sorted(outcome: Outcome) -> AskedOutcome {
    match outcome {
        Outcome::Found { function, number, row } => AskedOutcome::Found { function, number, row },
        Outcome::NoFunction => AskedOutcome::NoFunction,
        Outcome::NoRow { function } => AskedOutcome::NoRow { function },
        other => panic!("{other:?} is no answer of an accepted sorted section"),
    }
}

pub fn found(function: u64, number: u64, row: Row, compared: u64) -> Answer {
    Answer { outcome: Outcome::Found { function, number, row }, compared }
}

pub fn no_function(compared: u64) -> Answer {
    Answer { outcome: Outcome::NoFunction, compared }
}

pub fn disputed(first: u64, second: u64, compared: u64) -> Answer {
    Answer { outcome: Outcome::Disputed { first, second }, compared }
}

pub fn no_row(function: u64, compared: u64) -> Answer {
    Answer { outcome: Outcome::NoRow { function }, compared }
}

pub fn section_refused(number: u64, index: u64) -> Answer {
    Answer { outcome: Outcome::SectionRefused { number, index }, compared: 0 }
}

/// What the author reads in document 01 of a place in a section that is described.
#[derive(Clone, Copy, Debug, PartialEq, Eq)]
pub enum Said {
    /// A function's index and a row's number in it.
    Row(u64, u64),
    NoFunction,
    Disputed(u64, u64),
    NoRow(u64),
}

/// Questions about places d of a section loaded at an address, with what the author says of each.
pub fn said(section: &Section, address: u64, places: &[(i128, Said)]) -> Vec<Question> {
    let functions = described(section);
    let sorted = section.flags & SORTED != 0;
    let ask = |&(d, said): &(i128, Said)| {
        let outcome = match said {
            Said::Row(function, number) => {
                let row = functions[function as usize].rows[number as usize];
                Outcome::Found { function, number, row }
            }
            Said::NoFunction => Outcome::NoFunction,
            Said::Disputed(first, second) => Outcome::Disputed { first, second },
            Said::NoRow(function) => Outcome::NoRow { function },
        };
        let compared = obvious::compared(sorted, &functions, d);
        let expected = Answer { outcome, compared };
        Question { address, pc: pc_at(address, d).expect("a PC"), expected, asked: None }
    };
    places.iter().map(ask).collect()
}

/// Questions about places d, answered by the definition; places that no PC reaches are left out.
pub fn defined(sorted: bool, functions: &[Function], address: u64, places: &BTreeSet<i128>) -> Vec<Question> {
    let pcs = places.iter().filter_map(|&d| pc_at(address, d));
    let ask = |pc| Question { address, pc, expected: obvious::answer(sorted, functions, address, pc), asked: None };
    pcs.map(ask).collect()
}

/// Questions at the PCs that only a wrapped distance would take for these places, which no PC reaches: no function
/// covers them.
pub fn wrapped(section: &Section, address: u64, places: &BTreeSet<i128>) -> Vec<Question> {
    let unreached = places.iter().filter(|&&d| pc_at(address, d).is_none());
    let distances: Vec<(i128, Said)> = unreached
        .map(|&d| {
            let pc = address.wrapping_add(d as u64);
            (i128::from(pc) - i128::from(address), Said::NoFunction)
        })
        .collect();
    said(section, address, &distances)
}

/// Questions about every edge of a section that is described, answered by the definition.
pub fn at_edges(section: &Section, address: u64) -> Vec<Question> {
    let functions = described(section);
    defined(section.flags & SORTED != 0, &functions, address, &edges(&functions))
}

/// The PC at a place, unless it would lie outside 0 to 2^64 - 1.
pub fn pc_at(address: u64, d: i128) -> Option<u64> {
    u64::try_from(i128::from(address) + d).ok()
}

/// The places where the answer may become another, and the last before each.
pub fn edges(functions: &[Function]) -> BTreeSet<i128> {
    functions.iter().flat_map(edges_of).flat_map(|edge| [edge - 1, edge]).collect()
}

// Where a function begins and ends and where its rows do; of repeated blocks the first two and the last.
fn edges_of(function: &Function) -> Vec<i128> {
    let (start, size) = (i128::from(function.start), i128::from(function.size));
    let blocks = match function.block {
        Block::Plain => vec![0],
        Block::Repeated(repeat) => {
            let repeat = i128::from(repeat);
            vec![0, repeat, (size - 1).max(0) / repeat * repeat]
        }
    };
    let rows = blocks.iter().flat_map(|block| function.rows.iter().map(move |row| block + i128::from(row.start)));
    let inside = rows.chain(blocks.iter().copied()).filter(|&place| place <= size);
    inside.chain([0, size]).map(|place| start + place).collect()
}
