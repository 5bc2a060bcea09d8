//! 24, 26 and 27 by the numbers that they compare, and callers with CFA and RA as it was read: by the mark, the mask,
//! and where RA and FP are.

use super::{Scene, Why};
use crate::cases::walks::{at, from_fp, from_sp, in_lr, pc_in, signed, Ground};
use crate::maker::{Machine, Row};
use crate::reader::{Registers, StepWhy, Then};

const TOP: u64 = u64::MAX;

pub fn all() -> Vec<Why> {
    let of_machine = |machine| beside_sp(machine).into_iter().chain(with_masks(machine));
    let in_lr = [Machine::Aarch64, Machine::Aarch64Big].into_iter().flat_map(left_in_lr);
    Machine::ALL.into_iter().flat_map(of_machine).chain(in_lr).collect()
}

fn then_of(why: &Why) -> Then {
    match why.step {
        StepWhy::Found { then, .. } => then,
        _ => panic!("{}: a row is found", why.name),
    }
}

// Where 26 is stated, the caller's SP is told beside SP and the mark; where it is not, another number follows.
fn too_low(why: Why, caller_sp: Option<u64>) -> Why {
    let Registers { sp, first, .. } = why.record.registers;
    match caller_sp {
        Some(caller_sp) => assert_eq!(then_of(&why), Then::TooLow { caller_sp, sp, first }, "{}", why.name),
        None => assert_ne!(then_of(&why).number(), 26, "{}", why.name),
    }
    why
}

/// A row's number, SP and FP, the mark, and CFA where it is too low.
type Beside = (i64, u64, u64, u64, Option<u64>);

/// The rows are SP + 0, SP - 1, SP - 128, SP + 1 and FP + 0.
const BESIDE_SP: [Beside; 24] = [
    (0, 0x7010, 0, 0, Some(0x7010)),
    (0, 0x7010, 0, 1, None),
    (0, 0x7010, 0, 0x100, None),
    (0, 0, 0, 0, Some(0)),
    (0, TOP, 0, 0, Some(TOP)),
    (1, 0x7010, 0, 0, Some(0x700f)),
    (1, 0x7010, 0, 1, Some(0x700f)),
    (1, 0x7010, 0, 9, Some(0x700f)),
    (1, 0x7010, 0, TOP, Some(0x700f)),
    (1, 1, 0, 1, Some(0)),
    (2, 0x7080, 0, 0, Some(0x7000)),
    (2, TOP, 0, 1 << 32, Some(TOP - 128)),
    (3, 0x7010, 0, 0, None),
    (3, 0x7010, 0, 1, None),
    (4, 0x7010, 0x700f, 0, Some(0x700f)),
    (4, 0x7010, 0x700f, 2, Some(0x700f)),
    (4, 0x7010, 0x7010, 0, Some(0x7010)),
    (4, 0x7010, 0x7010, 2, None),
    (4, 0x7010, 0x7011, 0, None),
    (4, 0x7010, 0, 1, Some(0)),
    (4, TOP, TOP - 1, 1, Some(TOP - 1)),
    (4, TOP, TOP, 0, Some(TOP)),
    (4, 1 << 63, (1 << 63) - 1, 1, Some((1 << 63) - 1)),
    (4, 0x7010, 0x7020, 0, None),
];

fn beside_sp(machine: Machine) -> Vec<Why> {
    let rows = [0, -1, -128, 1].map(|offset| from_sp(machine, offset, None)).to_vec();
    let ground = Ground::of_rows(machine, [&rows[..], &[from_fp(machine, 0, Some(-16))]].concat());
    let scene = Scene::of(format!("26_{}", machine.tag()), &ground.section);
    let why = |(row, sp, fp, first, cfa): Beside| {
        let registers = Registers { first, ..at(pc_in(row), sp, fp) };
        let what = format!("{row}_{sp:x}_{fp:x}_{first:x}");
        too_low(scene.from(what, registers, 0, (0x7000, (1..=0x30).collect())), cfa)
    };
    BESIDE_SP.map(why).into()
}

/// No bit, single ones, a usual one, and all.
const MASKS: [u64; 6] = [0, 1, 1 << 63, 0x007f_0000_0000_0000, 0xffff_ff80_0000_0000, TOP];

// Rows that have the signed bit and one that has not, RA being all ones or what the window's bytes are. On AArch64 mask
// 0 is 24, also where CFA would be outside.
fn with_masks(machine: Machine) -> Vec<Why> {
    let with_bit = [from_sp(machine, 16, None), from_sp(machine, 16, Some(-16)), from_sp(machine, -16, None)];
    let rows = with_bit.map(signed).into_iter().chain([from_sp(machine, 16, Some(-16))]).collect();
    let ground = Ground::of_rows(machine, rows);
    let scene = Scene::of(format!("mask_{}", machine.tag()), &ground.section);
    let stacks = [ground.words(0x7000, &[TOP; 2]), (0x7000, (0xa0..0xb0).collect())];
    let mut whys = Vec::new();
    for (turn, mask) in MASKS.into_iter().enumerate() {
        for (row, sp) in [(0, 0x7000), (1, 0x7000), (2, 8), (3, 0x7000)] {
            let registers = Registers { first: [0, 1, 5][(turn + row as usize) % 3], ..at(pc_in(row), sp, 0x99) };
            let stack = stacks[turn % 2].clone();
            let why = scene.from(format!("{mask:x}_{row}"), registers, mask, stack);
            let stated = if mask == 0 && row < 3 && machine != Machine::Amd64 {
                24
            } else if row == 2 {
                25
            } else {
                0
            };
            assert_eq!(then_of(&why).number(), stated, "{}", why.name);
            whys.push(why);
        }
    }
    whys
}

/// A row's number, the mark and the mask, and the number that comes of it.
const LEFT_IN_LR: [(i64, u64, u64, u64); 13] = [
    (0, 0, 0, 27),
    (0, 0, TOP, 27),
    (0, 1, 0, 0),
    (0, TOP, 0, 0),
    (1, 0, 0, 26),
    (1, 1, 0, 0),
    (1, 2, 0x00ff_0000_0000_0000, 0),
    (2, 0, 0, 24),
    (2, 1, 0, 24),
    (2, 0, 0x00ff_0000_0000_0000, 27),
    (2, 1, 0x00ff_0000_0000_0000, 0),
    (2, 1 << 63, TOP, 0),
    (3, 0, 0, 27),
];

// CFA is SP + 16, SP, SP + 16 with the signed bit, and FP + 16. No word is needed, so that the window has none.
fn left_in_lr(machine: Machine) -> Vec<Why> {
    let by_fp = Row { sp_base: false, ..in_lr(16) };
    let ground = Ground::of_rows(machine, vec![in_lr(16), in_lr(0), signed(in_lr(16)), by_fp]);
    let scene = Scene::of(format!("27_{}", machine.tag()), &ground.section);
    let why = |(row, first, mask, number)| {
        let registers = Registers { first, lr: 0x7f5a_5555_5555_7011, ..at(pc_in(row), 0x7000, 0x7020) };
        let why = scene.from(format!("{row}_{first:x}_{mask:x}"), registers, mask, (0x7000, Vec::new()));
        assert_eq!(then_of(&why).number(), number, "{}", why.name);
        why
    };
    LEFT_IN_LR.map(why).into()
}
