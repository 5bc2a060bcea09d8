//! Section S of document 01 and every K of it, and its three examples of walks on AArch64.

use super::questions::{disputed, found, no_function, section_refused, Question};
use super::walks::{in_lr, pc_in, Expected, Ground};
use super::{case, refused, Case, ACCEPTED};
use crate::maker::Machine;
use crate::reader::{Answer, Base, Ending, Place, Process, Registers, Row, Step};
use crate::walk::Walk;

/// Section S of document 01.
#[rustfmt::skip]
pub const S: [u8; 78] = [
    0xe2, 0xde, 0x02, 0x01, 0x03, 0x00, 0xf8, 0x00, 0x02, 0x00, 0x00, 0x00, 0x03, 0x00, 0x00, 0x00,
    0x0a, 0x00, 0x00, 0x00, 0x00, 0x00, 0x00, 0x00, 0x28, 0x00, 0x00, 0x00,
    0x00, 0x10, 0x00, 0x00, 0x20, 0x00, 0x00, 0x00, 0x00, 0x00, 0x00, 0x00, 0x02, 0x00, 0x00, 0x00,
    0x00, 0x00, 0x00, 0x00,
    0x40, 0x10, 0x00, 0x00, 0x10, 0x00, 0x00, 0x00, 0x07, 0x00, 0x00, 0x00, 0x01, 0x00, 0x00, 0x00,
    0x00, 0x00, 0x00, 0x00,
    0x00, 0x03, 0x08, 0x04, 0x04, 0x10, 0xf0, 0x00, 0x03, 0x08,
];

/// Where document 01 loads it.
const ADDRESS: u64 = 0x40_0000;

pub fn all() -> Vec<Case> {
    let mut overlapping = S;
    overlapping[48..52].copy_from_slice(&[0x1f, 0x10, 0, 0]);
    let mut unsorted = overlapping;
    unsorted[3] = 0;
    let cut = |number| vec![at(ADDRESS, 0x40_1003, section_refused(number, 0))];
    let overlap = vec![at(ADDRESS, 0x40_101f, section_refused(14, 1)), at(ADDRESS, 0x40_1003, section_refused(14, 1))];
    let [little, big] = [Machine::Aarch64, Machine::Aarch64Big].map(examples);
    vec![
        Case::new("K1_S", S.to_vec(), ACCEPTED).asked([of_s(), of_s_elsewhere()].concat()).walked(k10_to_k12()),
        Case::new("K2_S_77_bytes", S[..77].to_vec(), refused(8, 0)).asked(cut(8)),
        Case::new("K3_S_27_bytes", S[..27].to_vec(), refused(1, 0)).asked(cut(1)),
        Case::new("K8_S_second_start_101f", overlapping.to_vec(), refused(14, 1)).asked(overlap),
        Case::new("K9_S_second_start_101f_unsorted", unsorted.to_vec(), ACCEPTED).asked(of_overlap()),
        little,
        big,
    ]
}

// "PC 0x401044, SP 0x7000, FP 0x7030; stack at 0x7000, 64 bytes, all zero but the word 0x401008 at 0x7000".
fn k10_to_k12() -> Vec<Expected> {
    let walk = |bytes: usize, limit: u64| {
        let mut stack = vec![0; bytes];
        stack[..3].copy_from_slice(&[0x08, 0x10, 0x40]);
        let registers = Registers { pc: 0x40_1044, sp: 0x7000, fp: 0x7030, lr: 0, first: 1 };
        let process = Process { section: ADDRESS, stack: 0x7000, mask: 0 };
        Walk { process, registers, stack, limit, words: 3 * limit as usize }
    };
    let caller = Step::Caller(Registers { pc: 0x40_1008, sp: 0x7008, fp: 0x7030, lr: 0, first: 0 });
    let frames = [[0x7008, 0x40_1008, 0x7030], [0x7040, 0, 0]];
    let (k10, k11, k12) = (walk(64, 2), walk(64, 1), walk(63, 2));
    let expected_of_k10 = k10.stated(caller, &frames, Ending::Outermost);
    let expected_of_k11 = k11.stated(caller, &frames[..1], Ending::Full);
    let expected_of_k12 = k12.stated(caller, &frames[..1], Ending::Refused(28));
    vec![(k10, expected_of_k10), (k11, expected_of_k11), (k12, expected_of_k12)]
}

// "AArch64, first frame, SP base, offset 0: CFA = SP, RA = LR. The same row later: 26. With offset 16 later: 27." Later
// is a trace's second frame, or a step without the mark.
fn examples(machine: Machine) -> Case {
    let ground = Ground::of_rows(machine, vec![in_lr(0), in_lr(16)]);
    let (here, above) = (pc_in(0), pc_in(1));
    let walk = |pc, lr, first| {
        let registers = Registers { pc, sp: 0x7000, fp: 0x7030, lr, first };
        Walk {
            process: Process { section: crate::ADDRESS, stack: 0x7000, mask: 0 },
            registers,
            stack: vec![0; 32],
            limit: 3,
            words: 9,
        }
    };
    let caller = |sp, ra| Step::Caller(Registers { pc: ra, sp, fp: 0x7030, lr: ra, first: 0 });
    let refused = |walk: &Walk, number| Step::Refused { old: walk.registers, number };
    let (first, later) = (walk(here, here, 1), walk(here, here, 0));
    let (to_16, later_16) = (walk(here, above, 1), walk(above, above, 0));
    let expected_of = [
        first.stated(caller(0x7000, here), &[[0x7000, here, 0x7030]], Ending::Refused(26)),
        later.stated(refused(&later, 26), &[[0x7000, here, 0x7030]], Ending::Refused(26)),
        to_16.stated(caller(0x7000, above), &[[0x7000, above, 0x7030]], Ending::Refused(27)),
        later_16.stated(refused(&later_16, 27), &[[0x7010, above, 0x7030]], Ending::Refused(27)),
    ];
    let walks = [first, later, to_16, later_16].into_iter().zip(expected_of).collect();
    case(format!("examples_{}", machine.tag()), &ground.section, ACCEPTED).walked(walks)
}

fn at(address: u64, pc: u64, expected: Answer) -> Question {
    Question { address, pc, expected, asked: None }
}

pub(super) const ENTERED: Row =
    Row { start: 0, base: Base::Sp, cfa_offset: 8, ra: Place::AtOffset(-8), fp: Place::Register, signed: false };
pub(super) const FRAMED: Row = Row { start: 4, base: Base::Fp, cfa_offset: 16, fp: Place::AtOffset(-16), ..ENTERED };

// Of two entries the second is compared first: a PC at or above its start needs no other comparison.
fn of_s() -> Vec<Question> {
    let first = found(0, 0, ENTERED, 2);
    let first_framed = found(0, 1, FRAMED, 2);
    let second = found(1, 0, ENTERED, 1);
    let answers = [
        (0x40_0000, no_function(2)),
        (0x40_0ffe, no_function(2)),
        (0x40_0fff, no_function(2)),
        (0x40_1000, first),
        (0x40_1001, first),
        (0x40_1002, first),
        (0x40_1003, first),
        (0x40_1004, first_framed),
        (0x40_1005, first_framed),
        (0x40_101e, first_framed),
        (0x40_101f, first_framed),
        (0x40_1020, no_function(2)),
        (0x40_1021, no_function(2)),
        (0x40_103e, no_function(2)),
        (0x40_103f, no_function(2)),
        (0x40_1040, second),
        (0x40_1041, second),
        (0x40_1044, second),
        (0x40_104e, second),
        (0x40_104f, second),
        (0x40_1050, no_function(1)),
        (0x40_1051, no_function(1)),
    ];
    answers.map(|(pc, expected)| at(ADDRESS, pc, expected)).to_vec()
}

// The same places from other addresses, and PCs that only a distance of fewer bits would take for them.
fn of_s_elsewhere() -> Vec<Question> {
    vec![
        at(0, 0x1003, found(0, 0, ENTERED, 2)),
        at(0, 0x1040, found(1, 0, ENTERED, 1)),
        at(0, 0, no_function(2)),
        at(0, u64::MAX, no_function(1)),
        at(1, 0x1005, found(0, 1, FRAMED, 2)),
        at(ADDRESS, 0, no_function(2)),
        at(ADDRESS, u64::MAX, no_function(1)),
        at(ADDRESS, 0x1_0040_1003, no_function(1)),
        at(ADDRESS, 0x8000_0000_0040_1003, no_function(1)),
        at(0x1_0040_0000, 0x40_1003, no_function(2)),
        // F0 begins 16 bytes below 2^64: a PC that has come round to 0 lies far below it, not in it.
        at(u64::MAX - 0x100f, u64::MAX, found(0, 1, FRAMED, 2)),
        at(u64::MAX - 0x100f, 0, no_function(2)),
        at(u64::MAX, 0x1002, no_function(2)),
        at(u64::MAX, u64::MAX, no_function(2)),
    ]
}

// The second function covers 0x101f to 0x102e, the first 0x1000 to 0x101f; unsorted, both entries are compared.
fn of_overlap() -> Vec<Question> {
    let answers = [
        (0x40_0fff, no_function(2)),
        (0x40_1000, found(0, 0, ENTERED, 2)),
        (0x40_1003, found(0, 0, ENTERED, 2)),
        (0x40_1004, found(0, 1, FRAMED, 2)),
        (0x40_101e, found(0, 1, FRAMED, 2)),
        (0x40_101f, disputed(0, 1, 2)),
        (0x40_1020, found(1, 0, ENTERED, 2)),
        (0x40_102e, found(1, 0, ENTERED, 2)),
        (0x40_102f, no_function(2)),
        (u64::MAX, no_function(2)),
    ];
    answers.map(|(pc, expected)| at(ADDRESS, pc, expected)).to_vec()
}
