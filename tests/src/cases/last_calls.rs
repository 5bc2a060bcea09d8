//! Walks by the PC that is looked up: PC itself with the first-frame mark, and PC - 1 without it, so that a return
//! address just behind a function that ends in a call is looked up in the function and not in its neighbour.

use super::walks::{at, from_sp, in_lr, later, shared_out, Expected, Ground};
use super::{refused, Case, ACCEPTED, S};
use crate::maker::{Function, Machine, Row, Section, SORTED};
use crate::reader::{Ending, Process, Registers, Step};
use crate::walk::Walk;
use crate::ADDRESS;

pub fn all() -> Vec<Case> {
    let of_machine = |machine| [at_edges(machine), in_dispute(machine), at_zero(machine)];
    Machine::ALL.into_iter().flat_map(of_machine).chain(of_s()).chain(in_refused()).collect()
}

fn pc(d: i64) -> u64 {
    ADDRESS.wrapping_add_signed(d)
}

// A function that ends in a call, one of no bytes and a neighbour where it ends; behind a gap a function whose first
// row starts above 0; and repeated blocks.
fn ground(machine: Machine) -> Ground {
    let row = |start, cfa, fp| Row { start, ..from_sp(machine, cfa, fp) };
    let leaf = if machine == Machine::Amd64 { row(0, 8, None) } else { in_lr(0) };
    let mut repeated = Function::new(0x1100, 12 * 4, 0, vec![row(0, 8, None), row(5, 16, None), row(8, 24, Some(-24))]);
    (repeated.repeated, repeated.repeat) = (true, 12);
    let mut section = Section::new(machine);
    section.flags = SORTED;
    section.functions = vec![
        Function::new(0x1000, 0x40, 0, vec![row(0, 8, None), row(8, 32, Some(-16)), row(0x3c, 48, Some(-16))]),
        Function::new(0x1040, 0, 0, vec![row(0, 16, None)]),
        Function::new(0x1040, 0x20, 0, vec![leaf, row(4, 16, None)]),
        Function::new(0x1080, 0x20, 0, vec![row(4, 24, None)]),
        repeated,
    ];
    Ground::of(machine, section)
}

/// At starts and ends of functions, rows and blocks, and beside them: where the function before ends, where nobody
/// stands before, where no row starts so early, where the block before ends.
#[rustfmt::skip]
const EDGES: [i64; 32] = [
    0x0fff, 0x1000, 0x1001, 0x1007, 0x1008, 0x1009, 0x103c, 0x103d, 0x103f, 0x1040, 0x1041, 0x1044, 0x1045, 0x105f,
    0x1060, 0x1061, 0x1080, 0x1081, 0x1083, 0x1084, 0x1085, 0x10a0, 0x1100, 0x1101, 0x1105, 0x1108, 0x1109, 0x110b,
    0x110c, 0x110d, 0x1130, 0x1131,
];

// Each as PC with the mark and without, and as the return address that leads to it.
fn at_edges(machine: Machine) -> Case {
    let ground = ground(machine);
    let mut walks = Vec::new();
    for edge in EDGES {
        let words: Vec<u64> = (0..8).map(|word| if word % 2 == 0 { pc(edge) } else { 0x7000 + 8 * word }).collect();
        let stack = ground.words(0x7000, &words);
        let here = Registers { lr: pc(edge), ..at(pc(edge), 0x7000, 0x7010) };
        walks.push(ground.walk(here, stack.clone()));
        walks.push(ground.walk(later(here), stack.clone()));
        walks.push(ground.walk(Registers { pc: pc(0x1005), ..here }, stack));
    }
    ground.case("last_calls", shared_out(machine, walks))
}

// Two functions cover from a place on, and one before it; at the end of both, none.
fn in_dispute(machine: Machine) -> Case {
    let row = |cfa| vec![from_sp(machine, cfa, None)];
    let mut section = Section::new(machine);
    section.functions = vec![
        Function::new(0x1040, 0x40, 0, row(16)),
        Function::new(0x1000, 0x40, 0, row(8)),
        Function::new(0x1040, 0x20, 0, row(24)),
    ];
    let ground = Ground::of(machine, section);
    let stack = ground.words(0x7000, &[pc(0x1040), pc(0x1060), pc(0x1061), 0]);
    let mut walks = Vec::new();
    for d in [0x1000, 0x1001, 0x1040, 0x1041, 0x1060, 0x1061, 0x1080, 0x1081] {
        walks.push(ground.walk(at(pc(d), 0x7000, 0x7000), stack.clone()));
        walks.push(ground.walk(later(at(pc(d), 0x7000, 0x7000)), stack.clone()));
    }
    ground.case("last_calls_disputed", shared_out(machine, walks))
}

// A function lies where PC 0 is the first byte, the second or the last, and one where it would be by 64 bits.
fn at_zero(machine: Machine) -> Case {
    let rows = || vec![from_sp(machine, 8, None), Row { start: 1, ..from_sp(machine, 16, None) }];
    let mut section = Section::new(machine);
    section.flags = SORTED;
    section.functions = vec![Function::new(-0x1000, 0x20, 0, rows()), Function::new(0x1000, 0x20, 0, rows())];
    let ground = Ground::of(machine, section);
    let stack = ground.words(0x7000, &[1, 0, 2, 0]);
    let past_the_end = (u64::MAX, vec![0; 2]);
    let mut walks = Vec::new();
    for section in [0x1000, 0xfff, 0xfe1, 0_u64.wrapping_sub(0x1000), 0_u64.wrapping_sub(0x1020)] {
        for pc in [0, 1, 2, u64::MAX] {
            let here = at(pc, 0x7000, 0x7000);
            walks.push(ground.walk_from(section, here, stack.clone()));
            walks.push(ground.walk_from(section, later(here), stack.clone()));
        }
    }
    walks.push(ground.walk_from(0x1000, later(at(0, 0x7000, 0x7000)), past_the_end));
    ground.case("last_calls_at_0", shared_out(machine, walks))
}

// SPECIFICATION 7.4: section S, changed, and what each step must come to.
fn of_s() -> Vec<Case> {
    let changed = |name: &str, bytes: &[(usize, u8)], steps: Vec<Stated>| {
        let mut section = S.to_vec();
        bytes.iter().for_each(|&(place, byte)| section[place] = byte);
        Case::new(format!("ok_S_{name}"), section, ACCEPTED).walked(steps.iter().map(Stated::walk).collect())
    };
    let step = |pc, first, caller| Stated { section: LOADED, pc, first, caller };
    let far = |section, pc, first, caller| Stated { section, pc, first, caller };
    let top = 0_u64.wrapping_sub(0x1020);
    vec![
        changed("adjacent", &[(48, 0x20)], vec![step(0x40_1020, 0, Ok(BY_FRAME)), step(0x40_1020, 1, Ok(BY_ENTRY))]),
        changed(
            "as_it_is",
            &[],
            vec![
                step(0x40_1020, 0, Ok(BY_FRAME)),
                step(0x40_1020, 1, Err(21)),
                step(0x40_1040, 0, Err(21)),
                step(0x40_1040, 1, Ok(BY_ENTRY)),
                far(top, u64::MAX, 1, Ok(BY_FRAME)),
                far(top, 0, 0, Err(21)),
            ],
        ),
        changed(
            "late",
            &[(36, 3), (40, 1), (12, 2)],
            vec![step(0x40_1004, 0, Err(23)), step(0x40_1004, 1, Ok(BY_FRAME))],
        ),
        changed(
            "repeated",
            &[(44, 0x10), (45, 0x10)],
            vec![step(0x40_1010, 0, Ok(BY_FRAME)), step(0x40_1010, 1, Ok(BY_ENTRY))],
        ),
        changed(
            "below",
            &[(29, 0xf0), (30, 0xff), (31, 0xff)],
            vec![far(0x1000, 0, 1, Ok(BY_ENTRY)), far(0x1000, 0, 0, Err(21))],
        ),
    ]
}

// "PC 0 without the mark is answered 21, after the section checks": S cut, and its second function over the first.
fn in_refused() -> Vec<Case> {
    let case = |name: &str, section: Vec<u8>, number, index| {
        let registers = Registers { pc: 0, sp: 0x7000, fp: 0x7000, lr: 0, first: 0 };
        let process = Process { section: LOADED, stack: 0x7000, mask: 0 };
        let walk = Walk { process, registers, stack: vec![0; 8], limit: 1, words: 3 };
        let step = Step::Unsound { old: registers, number, index };
        let walked = walk.stated(step, &[], Ending::Unsound { number, index });
        Case::new(name, section, refused(number, index)).walked(vec![(walk, walked)])
    };
    let mut overlapping = S.to_vec();
    overlapping[48] = 0x1f;
    vec![case("8_S_at_0", S[..77].to_vec(), 8, 0), case("14_S_at_0", overlapping, 14, 1)]
}

const LOADED: u64 = 0x40_0000;

/// A step from SP and FP 0x7000, and the caller's CFA, RA and FP or the number.
struct Stated {
    section: u64,
    pc: u64,
    first: u64,
    caller: Result<[u64; 3], u64>,
}

/// CFA is SP + 8, and RA the word below it; or CFA is FP + 16, with FP's word below RA's.
const BY_ENTRY: [u64; 3] = [0x7008, 0x7038, 0x7000];
const BY_FRAME: [u64; 3] = [0x7010, 0x40_1044, 0x7038];

impl Stated {
    // A trace begins with the mark, whatever the step's is: without it the limit is too high, so that the trace says
    // nothing of the step's PC.
    fn walk(&self) -> Expected {
        let mut stack = vec![0; 64];
        stack[..8].copy_from_slice(&0x7038_u64.to_le_bytes());
        stack[8..16].copy_from_slice(&0x40_1044_u64.to_le_bytes());
        let registers = Registers { pc: self.pc, sp: 0x7000, fp: 0x7000, lr: 0, first: self.first };
        let process = Process { section: self.section, stack: 0x7000, mask: 0 };
        let limit = if self.first == 0 { 257 } else { 1 };
        let walk = Walk { process, registers, stack, limit, words: 3 };
        let step = match self.caller {
            Ok([sp, pc, fp]) => Step::Caller(Registers { pc, sp, fp, lr: 0, first: 0 }),
            Err(number) => Step::Refused { old: registers, number },
        };
        let walked = match self.caller {
            _ if self.first == 0 => walk.stated(step, &[], Ending::Refused(42)),
            Ok(frame) => walk.stated(step, &[frame], Ending::Full),
            Err(number) => walk.stated(step, &[], Ending::Refused(number)),
        };
        (walk, walked)
    }
}

#[cfg(test)]
mod tests {
    use super::*;

    // At some of the edges the mark decides; and a caller, 21 and 23 come with it and without.
    #[test]
    fn the_mark_decides_and_callers_21_and_23_come() {
        for machine in Machine::ALL {
            let ground = ground(machine);
            let numbers = |first| {
                let step = |edge: i64| {
                    let registers = Registers { first, ..at(pc(edge), 0x7000, 0x7010) };
                    ground.walk(registers, ground.words(0x7000, &[0; 12])).1.step.number()
                };
                EDGES.map(step)
            };
            let (marked, unmarked) = (numbers(1), numbers(0));
            assert!(marked.iter().zip(&unmarked).any(|(one, other)| one != other));
            for number in [0, 21, 23] {
                assert!(marked.contains(&number) && unmarked.contains(&number), "{number}: {marked:?}, {unmarked:?}");
            }
        }
    }
}
