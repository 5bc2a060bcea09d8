//! Walks in which a step breaks two rules or more, and the first in document 01's order must win.

use super::walks::{at, from_fp, from_sp, half, in_lr, later, pc_in, signed, start_of, Expected, Ground};
use super::Case;
use crate::maker::{Function, Machine, Row, Section};

const OUTSIDE: u64 = 5;
const TOP: u64 = u64::MAX;

pub fn all() -> Vec<Case> {
    let of_machine = |machine| {
        let ground = ground(machine);
        let walks = walks(&ground);
        // One byte order of AArch64 has all of them.
        let stored = match machine {
            Machine::Amd64 => half(walks, 0),
            Machine::Aarch64 => walks,
            Machine::Aarch64Big => half(walks, 1),
        };
        ground.case("two_rules", stored)
    };
    Machine::ALL.map(of_machine).into()
}

/// The functions by number, each named for what is wrong with its row: signed, CFA below SP, RA in LR.
const SIGNED: i64 = 0;
const SIGNED_DOWN: i64 = 1;
const SIGNED_LR: i64 = 2;
const DOWN: i64 = 3;
const LR_DOWN: i64 = 4;
const LR_HERE: i64 = 5;
const LR_UP: i64 = 6;
const BY_FP: i64 = 7;
const DISPUTED: i64 = 8;
const LATE: i64 = 10;

// On AMD64 the signed bit is ignored and RA is never in LR, so that the same walks end with the later rule.
fn ground(machine: Machine) -> Ground {
    let lr = |cfa| if machine == Machine::Amd64 { from_sp(machine, cfa, None) } else { in_lr(cfa) };
    let sp = |cfa| from_sp(machine, cfa, Some(-16));
    let fp = from_fp(machine, 16, None);
    let rows = [signed(sp(16)), signed(sp(-16)), signed(lr(16)), sp(-16), lr(-16), lr(0), lr(16), fp];
    let function = |(row, number): (Row, i64)| Function::new(start_of(number), 0x100, 0, vec![row]);
    let mut section = Section::new(machine);
    section.functions = rows.into_iter().zip(0..).map(function).collect();
    // Two signed functions over the same places, and one whose signed row starts behind the PC.
    let late = Row { start: 0x80, ..signed(sp(16)) };
    let disputed = Function::new(start_of(DISPUTED), 0x100, 0, vec![signed(sp(16))]);
    section.functions.extend([disputed.clone(), disputed, Function::new(start_of(LATE), 0x100, 0, vec![late])]);
    Ground::of(machine, section)
}

fn walks(ground: &Ground) -> Vec<Expected> {
    let past_the_end = (TOP, vec![0; 2]);
    let none = (0x7000, Vec::new());
    let whole = ground.words(0x6ff0, &[0, 0, 0, 0, 0]);
    let mut walks = Vec::new();
    for function in [SIGNED, SIGNED_DOWN, SIGNED_LR, DOWN, LR_DOWN, LR_HERE, LR_UP, BY_FP, DISPUTED, LATE] {
        let registers = at(pc_in(function), 0x7000, TOP);
        // 41 with everything; then each row's faults with a window of nothing, so that 28 is always broken too, and
        // with one that holds every word; and from SP 0, so that what lies below is outside, 25.
        walks.push(ground.walk(registers, past_the_end.clone()));
        walks.push(ground.walk(registers, none.clone()));
        walks.push(ground.walk(later(registers), none.clone()));
        walks.push(ground.walk(later(registers), whole.clone()));
        walks.push(ground.walk(at(registers.pc, 0, TOP), none.clone()));
        walks.push(ground.walk(later(at(registers.pc, 0, TOP)), none.clone()));
    }
    let outside = at(OUTSIDE, 0x7000, TOP);
    walks.push(ground.walk(outside, past_the_end));
    walks.push(ground.walk(later(outside), none));
    // CFA is below SP though it is inside: 26 before 28, with FP's base too.
    walks.push(ground.walk(at(pc_in(BY_FP), 0x7000, 0x6000), (0x7000, Vec::new())));
    walks.push(ground.walk(at(pc_in(BY_FP), 0x7000, 0x6000), whole));
    walks
}
