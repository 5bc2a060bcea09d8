//! Walks by the first-frame mark: any number but 0 is the mark, a refusal hands every register back as it came, the
//! mark's own number too, and a caller has none.

use super::walks::{from_fp, from_sp, half, in_lr, pc_in, signed, Expected, Ground};
use super::Case;
use crate::maker::Machine;
use crate::reader::Registers;

const MARKS: [u64; 5] = [0, 1, 2, 1 << 63, u64::MAX];

pub fn all() -> Vec<Case> {
    Machine::ALL.map(of_machine).into()
}

fn of_machine(machine: Machine) -> Case {
    let leaf = if machine == Machine::Amd64 { from_sp(machine, 24, None) } else { in_lr(24) };
    let rows = vec![
        from_sp(machine, 0, None),
        from_sp(machine, 16, Some(-16)),
        signed(from_sp(machine, 16, None)),
        from_fp(machine, 127, None),
        leaf,
    ];
    let ground = Ground::of_rows(machine, rows);
    let walks = MARKS.into_iter().flat_map(|first| with_mark(&ground, first)).collect();
    ground.case("marks", half(walks, u32::from(machine == Machine::Aarch64Big)))
}

// A caller of each row, and 21, 28, 41, 25; what the mark decides shows in the first and the last of the rows.
fn with_mark(ground: &Ground, first: u64) -> Vec<Expected> {
    let (fp, lr) = (0xfedc_ba98_7654_3210, 0x8123_4567_89ab_cdef);
    let registers = |pc| Registers { pc, sp: 0x7008, fp, lr, first };
    let stack = ground.words(0x7000, &[0xa1, 0xa2, 0xa3, 0xa4]);
    let far = Registers { fp: u64::MAX, ..registers(pc_in(3)) };
    let mut walks: Vec<Expected> = (0..5).map(|row| ground.walk(registers(pc_in(row)), stack.clone())).collect();
    walks.push(ground.walk(registers(0x8000_0000_0000_0001), stack.clone()));
    walks.push(ground.walk(registers(pc_in(1)), (0x7008, vec![0; 15])));
    walks.push(ground.walk(registers(pc_in(1)), (u64::MAX, vec![0; 2])));
    walks.push(ground.walk(far, stack));
    walks
}
