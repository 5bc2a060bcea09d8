//! Walks through sections of every form: sorted or not, starts that count from their fields, an auxiliary header,
//! repeated blocks, and rows whose starts and offsets have 1, 2 and 4 bytes.

use super::walks::{at, from_sp, Expected, Ground};
use super::Case;
use crate::maker::{Function, Machine, Row, Section, RELATIVE, SORTED};
use crate::ADDRESS;

pub fn all() -> Vec<Case> {
    of_forms("chain", 0)
}

/// The same with return addresses one behind the PCs of the chains, so that these are looked up in every frame.
pub fn returned() -> Vec<Case> {
    of_forms("behind", 1)
}

fn of_forms(kind: &str, behind: u64) -> Vec<Case> {
    let mut cases = Vec::new();
    for machine in Machine::ALL {
        // AMD64 has all of them, each byte order of AArch64 half.
        for (name, flags, auxiliary, big) in FORMS {
            if machine == Machine::Aarch64 && big || machine == Machine::Aarch64Big && !big {
                continue;
            }
            let section = section(machine, flags, auxiliary);
            let ground = Ground::of(machine, section);
            cases.push(ground.case(&format!("{kind}_{name}"), walks(&ground, behind)));
        }
    }
    cases
}

/// Flags, bytes of auxiliary header, and the byte order of AArch64 that the form is stored for.
const FORMS: [(&str, u8, usize, bool); 4] = [
    ("sorted", SORTED, 0, false),
    ("unsorted", 0, 5, true),
    ("rel_sorted", SORTED | RELATIVE, 12, true),
    ("rel_unsorted", RELATIVE, 0, false),
];

// In an unsorted section the functions stand in another order.
fn section(machine: Machine, flags: u8, auxiliary: usize) -> Section {
    let row = |start, cfa, fp| Row { start, ..from_sp(machine, cfa, fp) };
    let wide = |start, size_code, cfa| Row { size_code, ..row(start, cfa, Some(-16)) };
    let mut repeated =
        Function::new(0x3_0000, 12 * 5, 0, vec![row(0, 8, None), row(5, 16, None), row(8, 24, Some(-24))]);
    (repeated.repeated, repeated.repeat) = (true, 12);
    let mut section = Section::new(machine);
    (section.flags, section.auxiliary) = (flags, vec![0xff; auxiliary]);
    section.functions = vec![
        Function::new(-0x2000, 0x40, 0, vec![row(0, 8, None), row(4, 16, Some(-16)), row(0x3f, 8, None)]),
        Function::new(0x100, 0x400, 1, vec![row(0, 8, None), wide(0x180, 1, 40), wide(0x300, 1, 304)]),
        Function::new(0x1_0000, 0x2_0000, 2, vec![row(0, 8, None), wide(0x1_0000, 2, 24), wide(0x1_8000, 0, 48)]),
        repeated,
    ];
    if flags & SORTED == 0 {
        section.functions.rotate_left(1);
        section.functions.swap(0, 1);
    }
    section
}

fn pc(d: i64) -> u64 {
    ADDRESS.wrapping_add_signed(d)
}

// Chains of PCs by d, and the CFA offset of the row at each.
const CHAINS: [&[(i64, usize)]; 4] = [
    &[(-0x2000, 8), (0x100, 8), (0x27f, 8), (0x280, 40), (0x1_0000, 8), (0x2_0000, 24), (0x2_8000, 48), (0x2_ffff, 48)],
    &[(-0x1ffc, 16), (0x4ff, 304), (-0x1fc1, 8), (-0x1fc2, 16)],
    // Blocks of 12 bytes: 0 to 4, 5 to 7, 8 to 11.
    &[(0x3_0000, 8), (0x3_0005, 16), (0x3_000b, 24), (0x3_000c, 8), (0x3_001c, 8), (0x3_001d, 16), (0x3_003b, 24)],
    // The last is covered by none.
    &[(0x1_ffff, 8), (-0x1fff, 8), (0x3_003c, 0)],
];

fn walks(ground: &Ground, behind: u64) -> Vec<Expected> {
    CHAINS.map(|chain| through(ground, chain, behind)).into()
}

// Each frame's RA is the PC behind it in the chain or one behind that, and 0 in the last; every other word says where
// it stands.
fn through(ground: &Ground, chain: &[(i64, usize)], behind: u64) -> Expected {
    let length: usize = chain.iter().map(|(_, cfa)| cfa).sum();
    let mut words: Vec<u64> = (0..length as u64 / 8).map(|place| 0xf000_0000 + place).collect();
    let mut cfa = 0;
    for (frame, (_, offset)) in chain.iter().enumerate() {
        cfa += offset / 8;
        if *offset > 0 {
            words[cfa - 1] = chain.get(frame + 1).map_or(0, |next| pc(next.0) + behind);
        }
    }
    ground.walk_with(at(pc(chain[0].0), 0x7000, 0x9999), ground.words(0x7000, &words), 8, 24)
}

#[cfg(test)]
mod tests {
    use super::*;

    fn endings(case: &Case) -> Vec<(u64, u64)> {
        case.walks.iter().map(|(_, walked)| (walked.traced.frames, walked.traced.ending.number())).collect()
    }

    // The offsets beside the PCs are right: every chain but the last ends with its own 0.
    #[test]
    fn chains_are_walked_to_their_end() {
        for case in returned() {
            assert_eq!(endings(&case), [(8, 30), (4, 30), (7, 30), (2, 21)], "{}", case.name);
        }
    }

    // A return address at the first byte of a function, before which nobody stands; at that of a row, in a function and
    // in a block, so that the row before it counts; and just behind a function, which is then the one that called.
    #[test]
    fn chains_at_the_places_themselves_go_another_way() {
        for case in all() {
            assert_eq!(endings(&case), [(1, 21), (3, 21), (2, 21), (2, 28)], "{}", case.name);
        }
    }
}
