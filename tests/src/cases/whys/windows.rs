//! 28: the first word that is outside the window, RA's before FP's, its place and the window's; and 41, the window's
//! address and its length.

use super::{bytes, Scene, Why};
use crate::cases::walks::{at, from_fp, from_sp, later, pc_in, Ground};
use crate::maker::{Machine, Row};
use crate::reader::{SavedWord, StepWhy, Sum, Then};
use SavedWord::{Fp, Ra};
use Sum::{Above, At, Below};

const TOP: u64 = u64::MAX;

pub fn all() -> Vec<Why> {
    let of_machine = |machine| [around(machine), at_both_ends(machine), far(machine), past_the_end(machine)];
    let above_cfa = [Machine::Aarch64, Machine::Aarch64Big].map(ra_above_cfa);
    Machine::ALL.into_iter().flat_map(of_machine).chain(above_cfa).flatten().collect()
}

/// A row's number, a window, and which word is outside it. CFA is 0x7010 and RA at 0x7008; FP is nowhere, at 0x7000, at
/// 0x7018, or where RA is.
type Around = (i64, u64, usize, Option<SavedWord>);

const AROUND: [Around; 32] = [
    (0, 0x7008, 8, None),
    (0, 0x7008, 7, Some(Ra)),
    (0, 0x7008, 9, None),
    (0, 0x7009, 8, Some(Ra)),
    (0, 0x7007, 8, Some(Ra)),
    (0, 0x7007, 9, None),
    (0, 0x7001, 15, None),
    (0, 0x7001, 14, Some(Ra)),
    (0, 0x7008, 0, Some(Ra)),
    (0, 0x7008, 1, Some(Ra)),
    (0, 0x7010, 8, Some(Ra)),
    (0, 0x7000, 8, Some(Ra)),
    (0, 0, 0, Some(Ra)),
    (0, TOP, 1, Some(Ra)),
    (1, 0x7000, 16, None),
    (1, 0x7001, 15, Some(Fp)),
    (1, 0x7000, 15, Some(Ra)),
    (1, 0x7008, 8, Some(Fp)),
    (1, 0x7007, 9, Some(Fp)),
    (1, 0x7000, 8, Some(Ra)),
    (1, 0x7001, 14, Some(Ra)),
    (1, 0x7000, 0, Some(Ra)),
    (2, 0x7008, 24, None),
    (2, 0x7008, 23, Some(Fp)),
    (2, 0x7009, 23, Some(Ra)),
    (2, 0x7008, 8, Some(Fp)),
    (2, 0x7008, 16, Some(Fp)),
    (2, 0x7018, 8, Some(Ra)),
    (2, 0x7020, 8, Some(Ra)),
    (3, 0x7008, 8, None),
    (3, 0x7008, 7, Some(Ra)),
    (3, 0x7009, 7, Some(Ra)),
];

fn around(machine: Machine) -> Vec<Why> {
    let row = |fp| from_sp(machine, 16, fp);
    let ground = Ground::of_rows(machine, vec![row(None), row(Some(-16)), row(Some(8)), row(Some(-8))]);
    let scene = Scene::of(format!("28_{}", machine.tag()), &ground.section);
    let why = |(turn, (row, address, length, outside)): (usize, Around)| {
        let marked = at(pc_in(row), 0x7000, 0xf0f0);
        let registers = if turn % 3 == 1 { later(marked) } else { marked };
        let why = scene.from(format!("{row}_{address:x}_{length}"), registers, 0, bytes(address, length));
        assert_eq!(word_outside(&why).map(|(word, _)| word), outside, "{}", why.name);
        why
    };
    AROUND.into_iter().enumerate().map(why).collect()
}

// The word of 28 and what its place comes to.
fn word_outside(why: &Why) -> Option<(SavedWord, Sum)> {
    match why.step {
        StepWhy::Found { then: Then::NotInside { word, sum, .. }, .. } => Some((word, sum)),
        _ => None,
    }
}

/// A row's number, the value of its base register, a window, and the word that is outside it with its place.
type Placed = (i64, u64, (u64, usize), Option<(SavedWord, Sum)>);

// A register that is not the base is 0, so that CFA is not below SP.
fn placed(scene: &Scene, ground: &Ground, (row, base, (address, length), outside): Placed) -> Why {
    let by_sp = ground.section.functions[row as usize].rows[0].sp_base;
    let (sp, fp) = if by_sp { (base, 0) } else { (0, base) };
    let what = format!("{row}_{base:x}_{address:x}_{length}");
    let why = scene.from(what, at(pc_in(row), sp, fp), 0, bytes(address, length));
    assert_eq!(word_outside(&why), outside, "{}", why.name);
    why
}

/// CFA is SP + 16, SP, FP, SP, FP, SP; RA is at CFA - 8; FP is nowhere in the first three rows, and at CFA + 8, CFA - 16
/// and CFA in the others.
const AT_BOTH_ENDS: [Placed; 28] = [
    // CFA is 2^64 - 1.
    (0, TOP - 16, (TOP - 8, 8), None),
    (0, TOP - 16, (TOP - 8, 9), None),
    (0, TOP - 16, (TOP - 8, 7), Some((Ra, At(TOP - 8)))),
    (0, TOP - 16, (TOP - 7, 8), Some((Ra, At(TOP - 8)))),
    (0, TOP - 16, (0, 16), Some((Ra, At(TOP - 8)))),
    (2, TOP, (TOP - 8, 8), None),
    (2, TOP, (0x7000, 16), Some((Ra, At(TOP - 8)))),
    // RA's word is at 0, and below it.
    (1, 8, (0, 8), None),
    (1, 8, (0, 7), Some((Ra, At(0)))),
    (1, 8, (1, 8), Some((Ra, At(0)))),
    (1, 7, (0, 8), Some((Ra, Below(1)))),
    (1, 7, (TOP - 7, 8), Some((Ra, Below(1)))),
    (1, 0, (0, 8), Some((Ra, Below(8)))),
    (1, 0, (TOP - 7, 8), Some((Ra, Below(8)))),
    (2, 0, (0, 8), Some((Ra, Below(8)))),
    (2, 7, (0, 8), Some((Ra, Below(1)))),
    (2, 8, (0, 8), None),
    // FP's word above the end.
    (3, TOP - 15, (TOP - 23, 24), None),
    (3, TOP - 15, (TOP - 23, 23), Some((Fp, At(TOP - 7)))),
    (3, TOP - 8, (TOP - 16, 17), Some((Fp, At(TOP)))),
    (3, TOP - 7, (TOP - 15, 16), Some((Fp, Above(1)))),
    (3, TOP, (TOP - 8, 9), Some((Fp, Above(8)))),
    (3, TOP, (0, 16), Some((Ra, At(TOP - 8)))),
    (5, TOP, (TOP - 8, 9), Some((Fp, At(TOP)))),
    // FP's word below 0.
    (4, 16, (0, 16), None),
    (4, 16, (8, 8), Some((Fp, At(0)))),
    (4, 15, (0, 16), Some((Fp, Below(1)))),
    (4, 8, (0, 16), Some((Fp, Below(8)))),
];

fn at_both_ends(machine: Machine) -> Vec<Why> {
    let (sp, fp) = (|cfa, saved| from_sp(machine, cfa, saved), |saved| from_fp(machine, 0, saved));
    let rows = vec![sp(16, None), sp(0, None), fp(None), sp(0, Some(8)), fp(Some(-16)), sp(0, Some(0))];
    let ground = Ground::of_rows(machine, rows);
    let scene = Scene::of(format!("28_ends_{}", machine.tag()), &ground.section);
    AT_BOTH_ENDS.map(|stated| placed(&scene, &ground, stated)).into()
}

const MOST: u64 = i32::MAX as u64;

/// FP is at CFA + 300, CFA - 300, and as far from it as an offset goes; CFA is SP + 16.
const FAR: [Placed; 9] = [
    (0, 0x7000, (0x7008, 8), Some((Fp, At(0x713c)))),
    (0, 0x7000, (0x7008, 0x13c), None),
    (1, 0x7000, (0x7000, 16), Some((Fp, At(0x6ee4)))),
    (1, 300 - 17, (0, 512), Some((Fp, Below(1)))),
    (2, 0x7000, (0x7000, 16), Some((Fp, At(0x8000_700f)))),
    (2, TOP - 16 - MOST, (TOP - 16 - MOST, 16), Some((Fp, At(TOP)))),
    (2, TOP - 16, (TOP - 16, 16), Some((Fp, Above(MOST)))),
    (3, 0x7000, (0x7000, 16), Some((Fp, Below(0x7fff_8ff0)))),
    (3, MOST - 15, (MOST - 15, 16), Some((Fp, At(0)))),
];

fn far(machine: Machine) -> Vec<Why> {
    let rows = [300, -300, i32::MAX, i32::MIN].map(|fp| from_sp(machine, 16, Some(fp)));
    let ground = Ground::of_rows(machine, rows.to_vec());
    let scene = Scene::of(format!("28_far_{}", machine.tag()), &ground.section);
    FAR.map(|stated| placed(&scene, &ground, stated)).into()
}

/// RA is at CFA, at CFA + 8, and as far from it as an offset goes; FP is nowhere, or at CFA - 8 in the last row. CFA is
/// SP.
const RA_ABOVE_CFA: [Placed; 13] = [
    (0, TOP - 7, (TOP - 7, 8), None),
    (0, TOP, (TOP - 7, 8), Some((Ra, At(TOP)))),
    (0, TOP - 6, (TOP - 7, 8), Some((Ra, At(TOP - 6)))),
    (1, TOP - 15, (TOP - 15, 16), None),
    (1, TOP - 8, (TOP - 15, 16), Some((Ra, At(TOP)))),
    (1, TOP - 7, (0, 8), Some((Ra, Above(1)))),
    (1, TOP, (0, 16), Some((Ra, Above(8)))),
    (2, TOP, (0, 16), Some((Ra, Above(MOST)))),
    (2, 0x7000, (0x7000, 16), Some((Ra, At(0x8000_6fff)))),
    (3, 0x7000, (0x7000, 16), Some((Ra, Below(0x7fff_9000)))),
    (3, MOST + 1, (0, 8), None),
    // Both are outside, and RA is told though FP's word is the lower one.
    (4, TOP, (0, 8), Some((Ra, Above(8)))),
    (4, 4, (0, 8), Some((Ra, At(12)))),
];

fn ra_above_cfa(machine: Machine) -> Vec<Why> {
    let offsets: [&[i32]; 5] = [&[0, 0], &[0, 8], &[0, i32::MAX], &[0, i32::MIN], &[0, 8, -8]];
    let ground = Ground::of_rows(machine, offsets.map(|offsets| Row::new(0, 2, offsets)).to_vec());
    let scene = Scene::of(format!("28_above_{}", machine.tag()), &ground.section);
    RA_ABOVE_CFA.map(|stated| placed(&scene, &ground, stated)).into()
}

/// Windows that end at 2^64 or past it, and whether they are past it.
const ENDS: [(u64, usize, bool); 9] = [
    (TOP, 0, false),
    (TOP, 1, false),
    (TOP, 2, true),
    (TOP, 9, true),
    (TOP - 7, 8, false),
    (TOP - 7, 9, true),
    (TOP - 63, 64, false),
    (TOP - 63, 65, true),
    (TOP - 62, 200, true),
];

// 41 comes before PC 0 without the mark and before a PC that no function covers.
fn past_the_end(machine: Machine) -> Vec<Why> {
    let ground = Ground::of_rows(machine, vec![from_sp(machine, 16, None)]);
    let scene = Scene::of(format!("41_{}", machine.tag()), &ground.section);
    let why = |(address, length, past): (u64, usize, bool)| {
        let from = [("row", at(pc_in(0), 0x7000, 0)), ("0", later(at(0, 0x7000, 0))), ("1", later(at(1, 0x7000, 0)))];
        from.map(|(name, registers)| {
            let mut why = scene.from(format!("{address:x}_{length}_{name}"), registers, 0, bytes(address, length));
            if past {
                why.step = StepWhy::PastTheEnd { stack: address, length: length as u64 };
            }
            assert_eq!(why.step.number() == 41, past, "{}", why.name);
            why
        })
    };
    ENDS.into_iter().flat_map(why).collect()
}
