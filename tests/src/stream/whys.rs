//! Answers to be explained: records for the program `reasons`, made until they come to every kind of explanation in
//! turn, so that each comes equally often at least. Sections and stacks are small.
#![forbid(unsafe_code)]

use super::lookups::question;
use super::turns::random_of;
use super::walks::{short_row, walk};
use super::{section, sound_row, Random};
use crate::maker::{Function, Machine, Row, Section, Start, RELATIVE, SORTED};
use crate::reader::{check, functions, Verdict};
use crate::reasons::{Kind, Record};
use crate::walk::Walk;

/// So that the records share nothing with a turn of the same seed.
const OTHER_SEED: u64 = 0x0077_6879;

/// The record of a number: its lookup or its step is of the kind that is next.
pub fn record(seed: u64, number: u64) -> Record {
    let random = &mut random_of(seed ^ OTHER_SEED, number);
    let aim = Kind::ALL[(number % Kind::ALL.len() as u64) as usize];
    loop {
        let record = made(random, aim);
        if record.kinds().contains(&aim) {
            return record;
        }
    }
}

fn made(random: &mut Random, aim: Kind) -> Record {
    let section = match aim {
        Kind::LookupRefused | Kind::StepRefused => section(random),
        _ => described(random, aim).bytes(),
    };
    let functions = if check(&section) == Verdict::Accepted { functions(&section) } else { Vec::new() };
    let big = section.first() == Some(&0xde);
    let mut walk = walk(random, &functions, big);
    if aim < Kind::Step41 || [Kind::Step21, Kind::Step22, Kind::Step23].contains(&aim) {
        let near = |random: &mut Random| {
            let edges =
                functions.iter().flat_map(|function| [function.start, function.start + i64::from(function.size)]);
            let edges: Vec<i64> = edges.chain([0]).collect();
            random.pick(&edges) + random.pick(&[-1, -1, 0, 0, 0, 1, 2, 3, 5])
        };
        (walk.process.section, walk.registers.pc) = question(random, near);
        walk.stack.truncate(24);
    }
    lead_to(random, aim, &mut walk);
    let Walk { process, registers, stack, .. } = walk;
    Record { section, stack, process, registers }
}

// What chance would seldom come to.
fn lead_to(random: &mut Random, aim: Kind, walk: &mut Walk) {
    let registers = &mut walk.registers;
    match aim {
        Kind::Step41 => walk.process.stack = random.below(walk.stack.len() as u64 + 2).wrapping_neg(),
        Kind::StepNothingAsked => (registers.pc, registers.first) = (0, 0),
        Kind::Step24 => walk.process.mask = 0,
        Kind::Step25Below => (registers.sp, registers.fp) = (random.below(200), random.below(200)),
        Kind::Step25Above => {
            (registers.sp, registers.fp) = (u64::MAX - random.below(200), u64::MAX - random.below(200))
        }
        Kind::Step26Equal => (registers.first, registers.fp) = (0, registers.sp),
        Kind::Step27 => registers.first = 0,
        // About as long as the one word that RA needs.
        Kind::Step28Fp => {
            walk.process.stack = registers.sp.wrapping_add(random.pick(&[0, 8, 8, 24]));
            walk.stack.resize(8 + random.index(5), 0xa5);
        }
        _ => (),
    }
}

// A few functions, one behind the other or, where several are to cover a place, on top of each other.
fn described(random: &mut Random, aim: Kind) -> Section {
    let on_aarch64 = [Kind::Step24, Kind::Step27, Kind::CallerByLr].contains(&aim);
    let machine = if on_aarch64 { random.pick(&Machine::ALL[1..]) } else { random.pick(&Machine::ALL) };
    let count = match aim {
        Kind::Lookup21NoneAtAll => random.below(3),
        Kind::Lookup22UpTo16 | Kind::Step22 => 2 + random.below(16),
        Kind::Lookup22MoreThan16 => 17 + random.below(8),
        _ => 1 + random.below(4),
    };
    let mut section = Section::new(machine);
    section.functions = (0..count).map(|_| function(random, machine, aim)).collect();
    section.flags = if random.once_in(2) { RELATIVE } else { 0 };
    if [Kind::Lookup22UpTo16, Kind::Lookup22MoreThan16, Kind::Step22].contains(&aim) {
        place_over(random, &mut section);
    } else {
        place_apart(random, &mut section);
    }
    section
}

fn function(random: &mut Random, machine: Machine, aim: Kind) -> Function {
    let mut start = random.pick(&[0, 0, 0, 2, 5]);
    let mut rows: Vec<Row> = Vec::new();
    for _ in 0..random.pick(&[0, 1, 1, 2, 3]) {
        let wild = random.once_in(4) || [Kind::Step25Below, Kind::Step25Above].contains(&aim);
        let mut row = if wild { sound_row(random, machine, start) } else { short_row(random, machine, start) };
        if aim == Kind::Step26Equal {
            row.offsets[0] = 0;
        }
        rows.push(row);
        start += 1 + random.below(6) as u32;
    }
    let size = if aim == Kind::Lookup21NoneAtAll { 0 } else { random.pick(&[0, 1, 4, 8, 20, 40]) };
    let mut function = Function::new(0, size, random.below(3) as u8, rows);
    function.repeated = random.once_in(4);
    function.repeat = 1 + random.below(12) as u8;
    function
}

// Sorted, or in any order.
fn place_apart(random: &mut Random, section: &mut Section) {
    let mut end = match random.below(8) {
        0 => random.number() as i32 as i64 / 4,
        // A start that counts from its own field does not reach so low.
        1 if section.flags & RELATIVE == 0 => i32::MIN.into(),
        2 => i64::from(i32::MAX) - 400,
        _ => random.below(80) as i64 - 60,
    };
    for function in &mut section.functions {
        let start = end + random.pick(&[0, 0, 1, 2, 30]);
        function.start = Start::Effective(start);
        end = start + i64::from(function.size);
    }
    if random.once_in(2) {
        section.flags |= SORTED;
        return;
    }
    for last in 1..section.functions.len() {
        section.functions.swap(last, random.index(last + 1));
    }
}

// Around one place, which not all of them cover.
fn place_over(random: &mut Random, section: &mut Section) {
    let place = random.below(4_000) as i64 - 2_000;
    for function in &mut section.functions {
        function.start = Start::Effective(place - random.below(4) as i64);
        function.size = if random.once_in(16) { random.below(3) as u32 } else { 4 + random.below(8) as u32 };
    }
}

#[cfg(test)]
mod tests {
    use super::*;
    use crate::obvious::{self, Meaning};
    use std::collections::BTreeMap;

    const EACH: u64 = 10_000;

    #[test]
    fn every_kind_comes_often_and_small() {
        let (mut counts, mut bytes, mut text) = (BTreeMap::<Kind, u64>::new(), 0, 0);
        for number in 0..EACH * Kind::ALL.len() as u64 {
            let record = record(9, number);
            record.kinds().into_iter().for_each(|kind| *counts.entry(kind).or_default() += 1);
            (bytes, text) = (bytes + record.length(), text + record.lines().len());
        }
        println!("{bytes} bytes of records, {text} of lines; how often each kind comes: {counts:#?}");
        assert!(Kind::ALL.iter().all(|kind| counts.get(kind).is_some_and(|&count| count >= EACH)), "{counts:?}");
        assert!(bytes < 100_000_000, "{bytes} bytes");
    }

    #[test]
    fn records_are_explained_by_the_definition() {
        for number in 0..20_000 {
            let record = record(10, number);
            let Record { section, stack, process, registers } = &record;
            let meaning = Meaning::read(section);
            let lookup = obvious::explain_lookup(&meaning, process.section, registers.pc);
            assert_eq!(record.lookup(), lookup, "record {number}: {record:x?}");
            let step = obvious::explain_step(&meaning, stack, *process, *registers);
            assert_eq!(record.step(), step, "record {number}: {record:x?}");
        }
    }

    #[test]
    fn a_record_is_found_again_by_its_number() {
        assert_eq!(record(3, 7), record(3, 7));
        assert_ne!(record(3, 7), record(3, 7 + Kind::ALL.len() as u64));
        assert_ne!(record(3, 7), record(4, 7));
    }
}
