//! Lookups straight from the definition, slowly: every function that covers a PC is listed, every row of it is tried.
//! `walk` makes steps and traces by them, `ask` asks one address of a section that is not checked, and `explain` says
//! why an answer is given.
//!
//! The reader is held against it. It works on functions as values, so that they can come from a section's
//! bytes, by the reader, or from the description that a section was built from, past the reader altogether.
#![forbid(unsafe_code)]

mod ask;
mod explain;
mod walk;

pub use ask::ask;
pub use explain::{explain_lookup, explain_step};
pub use walk::{step, trace, Meaning};

use crate::maker;
use crate::reader::{self, Answer, Base, Block, Function, Outcome, Place, Row, Verdict};

/// The answer for a section as it stands.
pub fn lookup(section: &[u8], address: u64, pc: u64) -> Answer {
    match reader::check(section) {
        Verdict::Refused { number, index } => {
            Answer { outcome: Outcome::SectionRefused { number, index }, compared: 0 }
        }
        Verdict::Accepted => {
            let sorted = section[3] & maker::SORTED != 0;
            answer(sorted, &reader::functions(section), address, pc)
        }
    }
}

/// The answer for a section of these functions.
pub fn answer(sorted: bool, functions: &[Function], address: u64, pc: u64) -> Answer {
    let d = i128::from(pc) - i128::from(address);
    Answer { outcome: outcome(functions, d), compared: compared(sorted, functions, d) }
}

fn outcome(functions: &[Function], d: i128) -> Outcome {
    let covering: Vec<usize> = (0..functions.len()).filter(|&index| covers(&functions[index], d)).collect();
    match covering[..] {
        [] => Outcome::NoFunction,
        [only] => in_function(only as u64, &functions[only], d),
        [first, second, ..] => Outcome::Disputed { first: first as u64, second: second as u64 },
    }
}

fn covers(function: &Function, d: i128) -> bool {
    let start = i128::from(function.start);
    start <= d && d < start + i128::from(function.size)
}

fn in_function(index: u64, function: &Function, d: i128) -> Outcome {
    let within = d - i128::from(function.start);
    let o = match function.block {
        Block::Plain => within,
        Block::Repeated(size) => within % i128::from(size),
    };
    let number = function.rows.iter().rposition(|row| i128::from(row.start) <= o);
    match number {
        None => Outcome::NoRow { function: index },
        Some(number) => Outcome::Found { function: index, number: number as u64, row: function.rows[number] },
    }
}

/// How many entries are compared for a place d.
pub fn compared(sorted: bool, functions: &[Function], d: i128) -> u64 {
    if sorted {
        halvings(functions, d, 0, functions.len())
    } else {
        functions.len() as u64
    }
}

// The halving rule from low to high: one comparison, and those of the half that it leaves.
fn halvings(functions: &[Function], d: i128, low: usize, high: usize) -> u64 {
    if low >= high {
        return 0;
    }
    let middle = (low + high) / 2;
    if i128::from(functions[middle].start) <= d {
        1 + halvings(functions, d, middle + 1, high)
    } else {
        1 + halvings(functions, d, low, middle)
    }
}

/// The same by numbers alone, for that many sorted entries of which the first so many start at or before d. The halving
/// rule compares the entry that half of them stand before, and goes on with that half or with the others.
pub fn halvings_of(entries: u64, begun: u64) -> u64 {
    let half = entries / 2;
    match entries {
        0 => 0,
        _ if begun <= half => 1 + halvings_of(half, begun),
        _ => 1 + halvings_of(entries - half - 1, begun - half - 1),
    }
}

/// The functions that a sound description speaks of.
///
/// # Panics
/// Where rows are placed by hand, so that the description does not say which they are.
pub fn described(section: &maker::Section) -> Vec<Function> {
    let function = |index: usize| {
        let function = &section.functions[index];
        let rows = match function.first_row {
            maker::FirstRow::Own => &function.rows,
            maker::FirstRow::SharedWith(other) => &section.functions[other].rows,
            placed => panic!("the rows of function {index} are placed by hand: {placed:?}"),
        };
        Function {
            start: section.effective_start(index),
            size: function.size,
            block: if function.repeated { Block::Repeated(function.repeat) } else { Block::Plain },
            rows: rows.iter().map(|row| described_row(section.abi, row)).collect(),
        }
    };
    (0..section.functions.len()).map(function).collect()
}

fn described_row(abi: u8, row: &maker::Row) -> Row {
    let place = |index: usize| row.offsets.get(index).map_or(Place::Register, |&o| Place::AtOffset(o.into()));
    let amd64 = abi == 3;
    Row {
        start: row.start,
        base: if row.sp_base { Base::Sp } else { Base::Fp },
        cfa_offset: row.offsets[0].into(),
        ra: if amd64 { Place::AtOffset(-8) } else { place(1) },
        fp: place(if amd64 { 1 } else { 2 }),
        signed: row.signed && !amd64,
    }
}
