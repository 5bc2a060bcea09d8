//! Walks on AArch64 by where RA is: in LR, which only the first frame may trust, or saved, with FP or without.

use super::walks::{at, from_fp, from_sp, in_lr, later, pc_in, shared_out, Expected, Ground};
use super::Case;
use crate::maker::{Machine, Row};
use crate::reader::Registers;

pub fn all() -> Vec<Case> {
    [Machine::Aarch64, Machine::Aarch64Big].into_iter().flat_map(|on| [first_and_later(on), chains(on)]).collect()
}

// Counts 1, 2 and 3 from both bases.
fn ground(machine: Machine) -> Ground {
    let lr_by_fp = Row { sp_base: false, ..in_lr(16) };
    let without_fp = from_sp(machine, 16, None);
    let with_fp = Row::new(0, 0, &[32, -24, -32]);
    let by_fp = from_fp(machine, 16, Some(-16));
    let ra_above = Row::new(0, 0, &[8, 0]);
    Ground::of_rows(machine, vec![in_lr(0), in_lr(16), lr_by_fp, without_fp, with_fp, by_fp, ra_above])
}

fn with_lr(registers: Registers, lr: u64) -> Registers {
    Registers { lr, ..registers }
}

// Every row with LR in a function, at no function, and 0; with the mark and without. The window is all zeros but for
// two words that are no PC.
fn first_and_later(machine: Machine) -> Case {
    let ground = ground(machine);
    let stack = ground.words(0x7000, &[0x7fff, 0xabcd, 0xabce, 0, 0]);
    let mut walks: Vec<Expected> = Vec::new();
    for row in 0..7 {
        for lr in [pc_in(3), 0, 0x1234_5678_9abc_def0] {
            let registers = with_lr(at(pc_in(row), 0x7000, 0x7000), lr);
            walks.push(ground.walk(registers, stack.clone()));
            walks.push(ground.walk(later(registers), stack.clone()));
        }
    }
    ground.case("link_register", shared_out(machine, walks))
}

// A leaf whose caller is in LR, and functions with every count above it; a later row that leaves RA in LR ends the
// walk, with 26 where CFA is SP and with 27 where it is above.
fn chains(machine: Machine) -> Case {
    let ground = ground(machine);
    let pc = pc_in;
    // The words from 0x7000 on, where LR leads to function 4: FP and RA of 32 bytes, then of 16, then RA alone.
    let to = |last: i64, last_fp| ground.words(0x7000, &[0x7028, pc(5), 0, 0, 0, last_fp, pc(last)]);
    let leaf = |function, sp| with_lr(at(pc(function), sp, 0x9999), pc(4));
    let ended = ground.words(0x7000, &[0x7028, pc(5), 0, 0, 0, 0x5555, pc(3), 0, 0]);
    let walks = vec![
        ground.walk(leaf(0, 0x7000), ended.clone()),
        ground.walk(leaf(1, 0x6ff0), ended),
        ground.walk(leaf(0, 0x7000), to(0, 0)),
        ground.walk(leaf(0, 0x7000), to(1, 0)),
        ground.walk(leaf(0, 0x7000), to(2, 0x7038)),
        ground.walk(leaf(0, 0x7000), to(2, 0x7028)),
        ground.walk(leaf(0, 0x7000), to(6, 0)),
        ground.walk(with_lr(leaf(0, 0x7000), pc(0)), to(0, 0)),
        ground.walk(with_lr(leaf(1, 0x7000), pc(1)), to(0, 0)),
        ground.walk(with_lr(leaf(0, 0x7000), 0), to(0, 0)),
        ground.walk(with_lr(leaf(4, 0x7000), pc(0)), to(0, 0)),
    ];
    ground.case("link_register_chains", walks)
}
