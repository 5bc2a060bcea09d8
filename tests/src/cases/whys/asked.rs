//! The PC that is looked up, PC itself with the mark and the one before it without; that nothing is where PC is 0
//! without the mark; and sections that are refused.

use super::{Scene, Why, MARKS};
use crate::cases::walks::{at, later, pc_in};
use crate::cases::{self, function_at};
use crate::maker::{Machine, Section, RELATIVE, SORTED};
use crate::reader::{LookupWhy, Process, Refusal, Registers, StepWhy, Verdict};
use crate::reasons::Record;
use crate::ADDRESS;
use std::collections::BTreeSet;

pub fn all() -> Vec<Why> {
    let around = Machine::ALL.into_iter().flat_map(around_edges);
    around.chain(at_the_lowest()).chain(refused()).collect()
}

/// Places around the functions of the section below: beside most of them another row begins, or another function.
const PLACES: [i128; 14] = [-0x21, -0x20, -0x1f, -0x11, -0x10, 0, 4, 8, 0xf, 0x10, 0x1f, 0x20, 0x30, 0x31];

// One by itself and two that adjoin, of which the second has a late row; sorted, relative, and neither.
fn around_edges(machine: Machine) -> Vec<Why> {
    let mut section = Section::new(machine);
    section.flags = [SORTED, RELATIVE, 0][machine as usize];
    section.auxiliary = vec![7; machine as usize];
    section.functions = vec![
        function_at(1, -0x20, 0x10, &[0, 4]),
        function_at(2, 0, 0x10, &[0, 8]),
        function_at(3, 0x10, 0x20, &[0x10]),
    ];
    let scene = Scene::of(format!("asked_{}", machine.tag()), &section);
    let both = |(turn, d): (usize, i128)| [scene.at(d, 0), scene.at(d, MARKS[turn % MARKS.len()])];
    PLACES.into_iter().enumerate().flat_map(both).collect()
}

/// The section's address and PC, with whether there is a mark.
const LOWEST: [(u64, u64, bool); 11] = [
    (0, 0, false),
    (0, 0, true),
    (0, 1, false),
    (0, 1, true),
    (8, 0, false),
    (8, 0, true),
    (8, 1, false),
    (u64::MAX, 0, false),
    (u64::MAX, 0, true),
    (u64::MAX, 1, false),
    (ADDRESS, 0, false),
];

// A function that lies at the addresses from 0 on, or from 2^64 - 8 on, by where the section is.
fn at_the_lowest() -> Vec<Why> {
    let mut whys = Vec::new();
    for (machine, start) in Machine::ALL.into_iter().zip([0, -8, 1]) {
        let mut section = Section::new(machine);
        section.functions = vec![function_at(1, start, 16, &[0, 1])];
        let scene = Scene::of(format!("lowest_{}", machine.tag()), &section);
        for (address, pc, marked) in LOWEST {
            let registers = Registers { first: u64::from(marked), ..at(pc, 0x7000, 0x7020) };
            let process = Process { section: address, stack: 0x7000, mask: 0 };
            let mut why = scene.why(format!("{address:x}_{pc}_{marked}"), process, registers, vec![0; 16]);
            if (pc, marked) == (0, false) {
                why.step = StepWhy::NothingAsked;
            }
            whys.push(why);
        }
    }
    whys
}

// The first stored case of every number and index: the refusal comes before whatever is asked, and behind 41.
fn refused() -> Vec<Why> {
    let (mut seen, mut whys) = (BTreeSet::new(), Vec::new());
    for case in cases::all() {
        if let Verdict::Refused { number, index } = case.expected {
            if seen.insert((number, index)) {
                whys.extend(in_refused(Refusal { number, index }, &case.section));
            }
        }
    }
    whys
}

fn in_refused(refusal: Refusal, section: &[u8]) -> [Why; 2] {
    let (at_a_row, at_0) = (at(pc_in(2), 0x7000, 0x7008), later(at(0, 0x7000, 0x7008)));
    let record = |registers, stack| {
        let process = Process { section: ADDRESS, stack, mask: 0 };
        Record { section: section.to_vec(), stack: vec![0; 16], process, registers }
    };
    let why = |name: &str, record, step| Why {
        name: format!("{}_at_{}_{name}", refusal.number, refusal.index),
        record,
        lookup: LookupWhy::Unsound(refusal),
        step,
    };
    let before = if refusal.index == 0 {
        why("past", record(at_a_row, u64::MAX), StepWhy::PastTheEnd { stack: u64::MAX, length: 16 })
    } else {
        why("0", record(at_0, 0x7000), StepWhy::Unsound(refusal))
    };
    [why("row", record(at_a_row, 0x7000), StepWhy::Unsound(refusal)), before]
}
