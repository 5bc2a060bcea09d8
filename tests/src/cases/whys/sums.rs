//! 25: the base register's value and the offset, with by how much their exact sum is below 0 or above 2^64 - 1; and
//! sums that are just not.

use super::{Scene, Why, MARKS};
use crate::cases::walks::{at, from_fp, from_sp, later, pc_in, Ground};
use crate::maker::{Machine, Row};
use crate::reader::{StepWhy, Sum, Then};
use Sum::{Above, At, Below};

const TOP: u64 = u64::MAX;
const MOST: u64 = i32::MAX as u64;

/// The offset of CFA, the base's value, and what they come to.
const SUMS: [(i32, u64, Sum); 28] = [
    (8, TOP - 8, At(TOP)),
    (8, TOP - 7, Above(1)),
    (8, TOP, Above(8)),
    (-8, 8, At(0)),
    (-8, 7, Below(1)),
    (-8, 0, Below(8)),
    (0, 0, At(0)),
    (0, TOP, At(TOP)),
    (1, TOP - 1, At(TOP)),
    (1, TOP, Above(1)),
    (-1, 1, At(0)),
    (-1, 0, Below(1)),
    // The outermost offsets of each width.
    (127, TOP - 127, At(TOP)),
    (127, TOP - 126, Above(1)),
    (-128, 128, At(0)),
    (-128, 127, Below(1)),
    (0x7fff, TOP - 0x7ffe, Above(1)),
    (0x7fff, TOP, Above(0x7fff)),
    (-0x8000, 0x7fff, Below(1)),
    (-0x8000, 0, Below(0x8000)),
    (i32::MAX, TOP - MOST, At(TOP)),
    (i32::MAX, TOP - MOST + 1, Above(1)),
    (i32::MAX, TOP, Above(MOST)),
    (i32::MIN, MOST + 1, At(0)),
    (i32::MIN, MOST, Below(1)),
    (i32::MIN, 1, Below(MOST)),
    (i32::MIN, 0, Below(MOST + 1)),
    (-24, 16, Below(8)),
];

pub fn all() -> Vec<Why> {
    Machine::ALL.into_iter().flat_map(of_machine).collect()
}

fn of_machine(machine: Machine) -> Vec<Why> {
    let mut offsets = SUMS.map(|(offset, _, _)| offset).to_vec();
    offsets.sort_unstable();
    offsets.dedup();
    let rows =
        |row: fn(Machine, i32, Option<i32>) -> Row| offsets.iter().map(move |&offset| row(machine, offset, None));
    let ground = Ground::of_rows(machine, rows(from_sp).chain(rows(from_fp)).collect());
    let scene = Scene::of(format!("25_{}", machine.tag()), &ground.section);
    let of_sum = |(turn, (offset, base, sum)): (usize, (i32, u64, Sum))| {
        let row = offsets.binary_search(&offset).expect("a row for each offset");
        let by_sp = stated(&scene, turn, row, (offset, base, sum), true);
        [by_sp, stated(&scene, turn, offsets.len() + row, (offset, base, sum), false)]
    };
    SUMS.into_iter().enumerate().flat_map(of_sum).collect()
}

// From FP the stack pointer is 0, so that CFA is not below it; every third is without the mark.
fn stated(scene: &Scene, turn: usize, row: usize, (offset, base, sum): (i32, u64, Sum), by_sp: bool) -> Why {
    let (name, sp, fp) = if by_sp { ("sp", base, 0x7020) } else { ("fp", 0, base) };
    let mut registers = at(pc_in(row as i64), sp, fp);
    registers.first = MARKS[turn % MARKS.len()];
    if turn % 3 == 2 {
        registers = later(registers);
    }
    let mut why = scene.from(format!("{name}{offset:+}_{base:x}"), registers, 0, (0x7000, vec![0; 16]));
    let StepWhy::Found { then, .. } = &mut why.step else { panic!("{}: a row is found", why.name) };
    match sum {
        At(_) => assert_ne!(then.number(), 25, "{}", why.name),
        sum => *then = Then::Outside { base, offset: offset.into(), sum },
    }
    why
}
