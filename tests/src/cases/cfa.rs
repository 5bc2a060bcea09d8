//! Walks by where CFA lies: inside 0 to 2^64 - 1 or not (25), above SP or not (26).

use super::walks::{at, from_fp, from_sp, later, pc_in, shared_out, Expected, Ground};
use super::Case;
use crate::maker::{Machine, Row};

const TOP: u64 = u64::MAX;
const MOST: u64 = i32::MAX as u64;

pub fn all() -> Vec<Case> {
    Machine::ALL.into_iter().flat_map(|machine| [at_the_ends(machine), beside_sp(machine)]).collect()
}

/// A row's number, SP and FP, and CFA where there is one.
type AtEnd = (i64, u64, u64, Option<u64>);

const AT_THE_ENDS: [AtEnd; 26] = [
    // SP + 8 and SP + 1: the last CFA is 2^64 - 1.
    (0, TOP - 8, 0, Some(TOP)),
    (0, TOP - 7, 0, None),
    (0, TOP, 0, None),
    (0, 0, 0, Some(8)),
    (1, TOP - 1, 0, Some(TOP)),
    (1, TOP, 0, None),
    // SP - 1 and SP - 8: what is not below 0 is below SP.
    (2, 0, 0, None),
    (2, 1, 0, Some(0)),
    (3, 7, 0, None),
    (3, 8, 0, Some(0)),
    // SP + 0.
    (4, 0, 0, Some(0)),
    (4, 8, 0, Some(8)),
    (4, TOP, 0, Some(TOP)),
    // FP + 16 and FP - 16.
    (5, 0, TOP - 16, Some(TOP)),
    (5, 0, TOP - 15, None),
    (6, 0, 15, None),
    (6, 0, 16, Some(0)),
    (6, 0, 24, Some(8)),
    // The outermost offsets.
    (7, TOP - MOST, 0, Some(TOP)),
    (7, TOP - MOST + 1, 0, None),
    (8, MOST, 0, None),
    (8, MOST + 1, 0, Some(0)),
    (9, 0, TOP - MOST, Some(TOP)),
    (9, 0, TOP - MOST + 1, None),
    (10, 0, MOST, None),
    (10, 0, MOST + 9, Some(8)),
];

fn rows_to_the_ends(machine: Machine) -> Vec<Row> {
    let sp = |offset| from_sp(machine, offset, None);
    let fp = |offset| from_fp(machine, offset, None);
    let near = [sp(8), sp(1), sp(-1), sp(-8), sp(0), fp(16), fp(-16)];
    near.into_iter().chain([sp(i32::MAX), sp(i32::MIN), fp(i32::MAX), fp(i32::MIN)]).collect()
}

// The window is the word below CFA, where that is a place at all, so that 25 and 26 stand alone; RA is 0.
fn at_the_ends(machine: Machine) -> Case {
    let ground = Ground::of_rows(machine, rows_to_the_ends(machine));
    let walk = |(row, sp, fp, cfa): AtEnd| {
        let word = cfa.and_then(|cfa| cfa.checked_sub(8)).unwrap_or(0x7000);
        let registers = at(pc_in(row), sp, fp);
        // At SP itself the mark decides.
        let same = (cfa == Some(sp)).then(|| ground.walk(later(registers), ground.words(word, &[0])));
        same.into_iter().chain([ground.walk(registers, ground.words(word, &[0]))])
    };
    let walks = AT_THE_ENDS.into_iter().flat_map(walk).collect();
    ground.case("cfa_at_the_ends", shared_out(machine, walks))
}

// CFA below SP, at it and above it, from both bases, with the mark and without. No two words of the window agree, so
// that the word that is read shows where CFA was.
fn beside_sp(machine: Machine) -> Case {
    let offsets = [-1, 0, 1, -128, 127].map(|offset| from_sp(machine, offset, None));
    let ground = Ground::of_rows(machine, [&offsets[..], &[from_fp(machine, 0, None)]].concat());
    let window: Vec<u8> = (1..=0x20).collect();
    let by_sp = (0..5).map(|row| at(pc_in(row), 0x7010, 0x7018));
    let by_fp = [0, 1, 0x700f, 0x7010, 0x7011, 0x7018, TOP].map(|fp| at(pc_in(5), 0x7010, fp));
    let both = by_sp.chain(by_fp).flat_map(|registers| [registers, later(registers)]);
    let walks: Vec<Expected> = both.map(|registers| ground.walk(registers, (0x7000, window.clone()))).collect();
    ground.case("cfa_beside_sp", shared_out(machine, walks))
}
