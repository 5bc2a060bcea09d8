//! Walks by what the stack window holds: a needed word wholly inside or not (28), and the window's own end (41).

use super::walks::{at, from_sp, pc_in, shared_out, Expected, Ground, Stack};
use super::Case;
use crate::maker::{Machine, Row};

const TOP: u64 = u64::MAX;

pub fn all() -> Vec<Case> {
    let mut cases = Vec::new();
    for machine in Machine::ALL {
        cases.push(around_the_words(machine));
        cases.push(at_both_ends(machine));
        if machine != Machine::Amd64 {
            cases.push(places_past_the_end(machine));
        }
    }
    cases
}

// Bytes that all differ, so that a word shows where it was read.
fn bytes(address: u64, length: usize) -> Stack {
    (address, (1..).take(length).collect())
}

/// Windows by address and length, around a word of RA at 0x7008.
const AROUND_RA: [(u64, usize); 18] = [
    (0x7008, 0),
    (0x7008, 1),
    (0x7008, 2),
    (0x7008, 3),
    (0x7008, 4),
    (0x7008, 5),
    (0x7008, 6),
    (0x7008, 7),
    (0x7008, 8),
    (0x7008, 9),
    (0x7009, 8),
    (0x7009, 15),
    (0x7007, 8),
    (0x7007, 9),
    (0x7001, 14),
    (0x7001, 15),
    (0x7010, 8),
    (0x7000, 8),
];

/// The same with FP below RA, at 0x7000: both words inside, one of them one byte short or far outside, none.
const WITH_FP_BELOW: [(u64, usize); 8] =
    [(0x7000, 16), (0x6fff, 17), (0x7001, 15), (0x7000, 15), (0x7008, 8), (0x7000, 8), (0x7001, 14), (0x7000, 0)];

/// The same with FP above CFA, at 0x7018.
const WITH_FP_ABOVE: [(u64, usize); 8] =
    [(0x7008, 24), (0x7007, 26), (0x7008, 23), (0x7009, 23), (0x7008, 8), (0x7018, 8), (0x7009, 22), (0x7020, 8)];

fn around_the_words(machine: Machine) -> Case {
    let row = |fp| from_sp(machine, 16, fp);
    let ground = Ground::of_rows(machine, vec![row(None), row(Some(-16)), row(Some(8))]);
    let walk = |function, &(address, length): &(u64, usize)| {
        ground.walk(at(pc_in(function), 0x7000, 0xf0f0), bytes(address, length))
    };
    let ra = AROUND_RA.iter().map(|window| walk(0, window));
    let below = WITH_FP_BELOW.iter().map(|window| walk(1, window));
    let above = WITH_FP_ABOVE.iter().map(|window| walk(2, window));
    ground.case("windows", shared_out(machine, ra.chain(below).chain(above).collect()))
}

/// A row's number, SP, and a window, the row's CFA being SP + 16, SP + 8 or SP + 0 and RA's word below it.
const AT_BOTH_ENDS: [(i64, u64, u64, usize); 26] = [
    // CFA is 2^64 - 1 and the window ends at 2^64; one byte more is 41.
    (0, TOP - 16, TOP - 15, 16),
    (0, TOP - 16, TOP - 15, 17),
    (0, TOP - 16, TOP - 8, 8),
    (0, TOP - 16, TOP - 8, 7),
    (0, TOP - 16, TOP - 7, 8),
    (1, TOP - 63, TOP - 63, 64),
    (1, TOP - 63, TOP - 63, 65),
    (1, TOP - 15, TOP - 15, 16),
    // A window of no bytes may lie anywhere, one of a byte may lie at the last address.
    (0, 0x7000, TOP, 0),
    (0, 0x7000, TOP, 1),
    (0, 0x7000, TOP, 2),
    (0, 0x7000, TOP, 9),
    (0, 0x7000, TOP - 1, 2),
    (0, 0x7000, TOP - 1, 3),
    // At 0: the word at 8 and the word at 0.
    (0, 0, 0, 16),
    (0, 0, 0, 15),
    (0, 0, 1, 15),
    (1, 0, 0, 8),
    (1, 0, 0, 7),
    (1, 0, 1, 8),
    (1, 0, 0, 0),
    // RA's place is below 0: 2^64 above it, or at the window's own first bytes, nothing is read.
    (2, 0, TOP - 7, 8),
    (2, 4, TOP - 7, 8),
    (2, 4, TOP - 15, 16),
    (2, 4, 0, 16),
    (2, 7, 0, 16),
];

fn at_both_ends(machine: Machine) -> Case {
    let ground = Ground::of_rows(machine, [16, 8, 0].map(|cfa| from_sp(machine, cfa, None)).to_vec());
    let walks = AT_BOTH_ENDS.map(|(row, sp, address, length)| {
        let registers = at(pc_in(row), sp, 0x0f0f_0f0f);
        ground.walk(registers, bytes(address, length))
    });
    ground.case("windows_at_both_ends", shared_out(machine, walks.into()))
}

/// RA's offset and FP's, CFA, and a window. No word above 2^64 - 8 is inside, wherever its bytes would come round to.
const PAST_THE_END: [(usize, u64, u64, usize); 13] = [
    (0, TOP - 7, TOP - 7, 8),
    (0, TOP - 6, TOP - 7, 8),
    (0, TOP - 3, TOP - 7, 8),
    (0, TOP, TOP - 7, 8),
    (0, 0, 0, 8),
    (0, 1, 0, 8),
    (1, TOP - 7, 0, 8),
    (1, TOP - 6, 0, 16),
    (1, TOP, 0, 16),
    (1, TOP - 15, TOP - 15, 16),
    (2, TOP - 7, TOP - 15, 16),
    (2, TOP - 3, TOP - 15, 16),
    (3, TOP - 7, TOP - 15, 16),
];

// RA at or above CFA, which only AArch64 has, and FP above it.
fn places_past_the_end(machine: Machine) -> Case {
    let offsets: [&[i32]; 4] = [&[0, 0], &[0, 8], &[0, -8, 0], &[0, -8, 8]];
    let ground = Ground::of_rows(machine, offsets.map(|offsets| Row::new(0, 0, offsets)).to_vec());
    let walk = |(row, cfa, address, length)| {
        let registers = at(pc_in(row as i64), cfa, 0x0f0f_0f0f);
        ground.walk(registers, bytes(address, length))
    };
    let walks: Vec<Expected> = PAST_THE_END.map(walk).into();
    ground.case("places_past_the_end", walks)
}
