//! Walks whose later frames are refused with each of 21 to 28, or end with 30 or 31: every frame comes from the last.

use super::walks::{at, from_fp, from_sp, half, in_lr, pc_in, signed, start_of, Expected, Ground};
use super::Case;
use crate::maker::{Function, Machine, Row, Section};

const TOP: u64 = u64::MAX;

pub fn all() -> Vec<Case> {
    Machine::ALL.map(of_machine).into()
}

/// The functions by number; the last two that are disputed cover the same places.
const CARRIER: i64 = 0;
const SIGNED: i64 = 1;
const BY_FP: i64 = 2;
const LR: i64 = 3;
const HERE: i64 = 4;
const LATE: i64 = 5;
const DISPUTED: i64 = 6;
const WIDE: i64 = 8;

fn ground(machine: Machine) -> Ground {
    let leaf = if machine == Machine::Amd64 { from_sp(machine, 24, None) } else { in_lr(24) };
    let late = Row { start: 0x80, ..from_sp(machine, 16, None) };
    let functions = [
        (CARRIER, from_sp(machine, 16, Some(-16))),
        (SIGNED, signed(from_sp(machine, 16, None))),
        (BY_FP, from_fp(machine, 16, Some(-16))),
        (LR, leaf),
        (HERE, from_sp(machine, 0, None)),
        (LATE, late),
        (DISPUTED, from_sp(machine, 16, None)),
        (DISPUTED, from_sp(machine, 16, None)),
        (WIDE, from_sp(machine, 1000, None)),
    ];
    let mut section = Section::new(machine);
    section.functions =
        functions.into_iter().map(|(at, row)| Function::new(start_of(at), 0x100, 0, vec![row])).collect();
    Ground::of(machine, section)
}

// So many frames that each save FP and RA in 16 bytes; the last of them leads to a PC with this FP.
fn carried(ground: &Ground, frames: usize, pc: u64, fp: u64, limit: u64) -> Expected {
    let mut words: Vec<u64> = (1..frames as u64).flat_map(|frame| [0xf000 + frame, pc_in(CARRIER)]).collect();
    words.extend([fp, pc, 0, 0]);
    ground.walk_with(at(pc_in(CARRIER), 0x7000, 0xf000), ground.words(0x7000, &words), limit, 3 * limit as usize + 2)
}

fn of_machine(machine: Machine) -> Case {
    let ground = ground(machine);
    let mut walks = Vec::new();
    for frames in 1..=3 {
        let sp = 0x7000 + 16 * frames as u64;
        let ends = [
            // 21: one below the first function, and behind the last.
            (pc_in(CARRIER) - 0x2d, 0),
            (pc_in(WIDE) + 0x100, 0),
            (pc_in(DISPUTED), 0),
            (pc_in(LATE), 0),
            (pc_in(SIGNED), 0),
            // By FP: outside on either side, below SP, at SP, a caller with FP read again, beyond the window.
            (pc_in(BY_FP), TOP),
            (pc_in(BY_FP), TOP - 15),
            (pc_in(BY_FP), sp - 17),
            (pc_in(BY_FP), sp - 16),
            (pc_in(BY_FP), sp),
            (pc_in(BY_FP), sp + 8),
            (pc_in(HERE), 0),
            (pc_in(LR), 0),
            (pc_in(WIDE), 0),
            (0, 0x5555),
        ];
        walks.extend(ends.map(|(pc, fp)| carried(&ground, frames, pc, fp, 4)));
        // The same frames under a limit that they fill, whatever would come next.
        walks.push(carried(&ground, frames, pc_in(DISPUTED), 0, frames as u64));
        walks.push(carried(&ground, frames, 0, 0x5555, frames as u64));
    }
    // One byte order of AArch64 has all of them.
    let stored = match machine {
        Machine::Amd64 => half(walks, 0),
        Machine::Aarch64 => half(walks, 1),
        Machine::Aarch64Big => walks,
    };
    ground.case("depths", stored)
}
