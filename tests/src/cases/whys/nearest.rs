//! 21: the covered addresses nearest to a PC on both sides, each with the lowest of the functions that cover it. What
//! counts is the address that is covered, not where a function starts; a function of size 0 covers none.

use super::{section_of, Scene, Why};
use crate::cases::function_at;
use crate::maker::{Function, Machine, Section};
use crate::reader::{LookupWhy, Near, Process, Registers, StepWhy, Unfound};

/// An address from the section's first byte and its function, or none.
type Side = Option<(i64, u64)>;

/// Functions by start and size, whether they are sorted, and for places what is nearest below and above.
type Table = (&'static str, bool, &'static [(i64, u32)], &'static [(i128, Side, Side)]);

pub fn all() -> Vec<Why> {
    let tables = TABLES.iter().enumerate().flat_map(|(turn, table)| of_table(turn, table));
    tables.chain(far()).collect()
}

fn of_table(turn: usize, (name, sorted, functions, places): &Table) -> Vec<Why> {
    let scene = Scene::of(format!("21_{name}"), &section_of(turn, *sorted, listed(functions)));
    let place = |(number, (d, below, above)): (usize, &(i128, Side, Side))| {
        scene.unfound(*d, turn + number, &nearest(below, above))
    };
    places.iter().enumerate().flat_map(place).collect()
}

// Each function with one row.
fn listed(functions: &[(i64, u32)]) -> Vec<Function> {
    functions.iter().zip(1..).map(|(&(start, size), tag)| function_at(tag, start, size, &[0])).collect()
}

fn nearest(below: &Side, above: &Side) -> Unfound {
    let near = |side: &Side| side.map(|(at, function)| Near { at, function });
    Unfound::NoFunction { below: near(below), above: near(above) }
}

const LOWEST: i64 = i32::MIN as i64;
const HIGHEST: i64 = i32::MAX as i64;

const TABLES: [Table; 31] = [
    ("no_functions", true, &[], &[(-1, None, None), (0, None, None), (0x40, None, None)]),
    ("no_functions_unsorted", false, &[], &[(0, None, None)]),
    (
        "nothing_but_size_0",
        true,
        &[(0, 0), (8, 0)],
        &[(-1, None, None), (0, None, None), (4, None, None), (8, None, None), (9, None, None)],
    ),
    (
        "one",
        true,
        &[(0x10, 0x10)],
        &[
            (-0x1000, None, Some((0x10, 0))),
            (0, None, Some((0x10, 0))),
            (0xf, None, Some((0x10, 0))),
            (0x20, Some((0x1f, 0)), None),
            (0x21, Some((0x1f, 0)), None),
            (0x7fff_ffff, Some((0x1f, 0)), None),
        ],
    ),
    ("one_byte", false, &[(5, 1)], &[(4, None, Some((5, 0))), (6, Some((5, 0)), None)]),
    ("at_0", true, &[(0, 4)], &[(-1, None, Some((0, 0))), (4, Some((3, 0)), None)]),
    ("up_to_0", true, &[(-4, 4)], &[(-5, None, Some((-4, 0))), (0, Some((-1, 0)), None)]),
    (
        "between_two",
        true,
        &[(0, 0x10), (0x20, 0x10)],
        &[
            (-1, None, Some((0, 0))),
            (0x10, Some((0xf, 0)), Some((0x20, 1))),
            (0x18, Some((0xf, 0)), Some((0x20, 1))),
            (0x1f, Some((0xf, 0)), Some((0x20, 1))),
            (0x30, Some((0x2f, 1)), None),
        ],
    ),
    ("one_between_two", true, &[(0, 8), (9, 8)], &[(8, Some((7, 0)), Some((9, 1)))]),
    (
        "between_two_falling",
        false,
        &[(0x40, 8), (0x20, 8), (0, 8)],
        &[
            (0x10, Some((7, 2)), Some((0x20, 1))),
            (0x28, Some((0x27, 1)), Some((0x40, 0))),
            (0x3f, Some((0x27, 1)), Some((0x40, 0))),
            (0x48, Some((0x47, 0)), None),
        ],
    ),
    (
        "adjoining",
        true,
        &[(0, 8), (8, 8), (0x18, 8), (0x20, 8)],
        &[(0x10, Some((0xf, 1)), Some((0x18, 2))), (-1, None, Some((0, 0))), (0x28, Some((0x27, 3)), None)],
    ),
    (
        "adjoining_unsorted",
        false,
        &[(8, 8), (0, 8), (0x20, 8), (0x18, 8)],
        &[(0x10, Some((0xf, 0)), Some((0x18, 3))), (0x17, Some((0xf, 0)), Some((0x18, 3)))],
    ),
    // Functions of size 0 beside the PC, at it, and on top of the true neighbours.
    ("size_0_below", true, &[(0, 8), (0xf, 0), (0x20, 8)], &[(0x10, Some((7, 0)), Some((0x20, 2)))]),
    ("size_0_above", true, &[(0, 8), (0x11, 0), (0x20, 8)], &[(0x10, Some((7, 0)), Some((0x20, 2)))]),
    (
        "size_0_at_the_pc",
        true,
        &[(0, 8), (0x10, 0), (0x20, 8)],
        &[
            (0xf, Some((7, 0)), Some((0x20, 2))),
            (0x10, Some((7, 0)), Some((0x20, 2))),
            (0x11, Some((7, 0)), Some((0x20, 2))),
        ],
    ),
    (
        "size_0_at_the_edges",
        true,
        &[(0, 8), (8, 0), (0x20, 0), (0x20, 8)],
        &[(8, Some((7, 0)), Some((0x20, 3))), (0x10, Some((7, 0)), Some((0x20, 3)))],
    ),
    (
        "size_0_first",
        false,
        &[(7, 0), (0x20, 0), (0, 8), (0x20, 8)],
        &[(8, Some((7, 2)), Some((0x20, 3))), (0x1f, Some((7, 2)), Some((0x20, 3)))],
    ),
    ("size_0_alone_below", false, &[(0, 0), (0x20, 8)], &[(0x10, None, Some((0x20, 1)))]),
    ("size_0_alone_above", false, &[(0x20, 0), (0, 8)], &[(0x10, Some((7, 1)), None)]),
    // Several that end or start together: the lowest index of those that cover the address.
    ("ends_tie", false, &[(0x40, 1), (7, 1), (0, 8), (4, 4)], &[(8, Some((7, 1)), Some((0x40, 0)))]),
    ("ends_tie_longest_first", false, &[(0x40, 1), (0, 8), (4, 4), (7, 1)], &[(8, Some((7, 1)), Some((0x40, 0)))]),
    ("starts_tie", false, &[(0, 1), (0x10, 4), (0x10, 1), (0x10, 0x20)], &[(8, Some((0, 0)), Some((0x10, 1)))]),
    ("starts_tie_longest_first", false, &[(0, 1), (0x10, 0x20), (0x10, 1)], &[(8, Some((0, 0)), Some((0x10, 1)))]),
    (
        "both_tie",
        false,
        &[(0x30, 4), (0, 2), (0x10, 8), (0, 8), (0x10, 1), (6, 2)],
        &[(8, Some((7, 3)), Some((0x10, 2))), (0xf, Some((7, 3)), Some((0x10, 2)))],
    ),
    ("listed_twice", false, &[(0, 8), (0, 8)], &[(-1, None, Some((0, 0))), (8, Some((7, 0)), None)]),
    // The last start before the PC, or the first entry's, is not that of the nearest address.
    ("one_inside_another", false, &[(0, 100), (50, 10)], &[(-1, None, Some((0, 0))), (100, Some((99, 0)), None)]),
    ("one_inside_another_first", false, &[(50, 10), (0, 100)], &[(100, Some((99, 1)), None), (-1, None, Some((0, 1)))]),
    (
        "long_and_short",
        false,
        &[(0, 0x20), (0x18, 4), (0x60, 1), (0x50, 0x40)],
        &[(0x20, Some((0x1f, 0)), Some((0x50, 3))), (0x4f, Some((0x1f, 0)), Some((0x50, 3)))],
    ),
    (
        "below_the_section",
        true,
        &[(-0x20, 8), (-8, 4)],
        &[
            (-0x21, None, Some((-0x20, 0))),
            (-0x18, Some((-0x19, 0)), Some((-8, 1))),
            (-9, Some((-0x19, 0)), Some((-8, 1))),
            (-4, Some((-5, 1)), None),
            (0, Some((-5, 1)), None),
        ],
    ),
    (
        "widest",
        true,
        &[(LOWEST, u32::MAX), (HIGHEST, 1)],
        &[(LOWEST as i128 - 1, None, Some((LOWEST, 0))), (HIGHEST as i128 + 1, Some((HIGHEST, 1)), None)],
    ),
    (
        "highest",
        true,
        &[(LOWEST, 1), (HIGHEST, u32::MAX)],
        &[
            (LOWEST as i128 + 1, Some((LOWEST, 0)), Some((HIGHEST, 1))),
            (HIGHEST as i128 - 1, Some((LOWEST, 0)), Some((HIGHEST, 1))),
            (0x1_7fff_fffe, Some((0x1_7fff_fffd, 1)), None),
        ],
    ),
];

/// The section's address and a PC far from it, and whether the functions lie below that.
const FAR: [(u64, u64, bool); 18] = [
    (0, u64::MAX, true),
    (u64::MAX, 0, false),
    (u64::MAX, 1, false),
    (1, u64::MAX, true),
    (0, 1 << 32, true),
    (0, (1 << 32) + 8, true),
    (0, 1 << 34, true),
    (0, 1 << 63, true),
    (0, (1 << 63) + 8, true),
    (1 << 63, 0, false),
    (1 << 63, 8, false),
    (1 << 63, u64::MAX, true),
    (u64::MAX - 3, 1, false),
    (u64::MAX - 3, 4, false),
    (u64::MAX - 15, 0, false),
    (1 << 34, 0, false),
    (1 << 62, (1 << 62) + (1 << 33), true),
    (1 << 62, (1 << 62) - (1 << 33), false),
];

// A function on either side of the section, where a distance of fewer bits would take some of these PCs for its own.
fn far() -> impl Iterator<Item = Why> {
    let scenes = Machine::ALL.map(|machine| {
        let section = Section { functions: listed(&[(8, 4), (-8, 4)]), ..Section::new(machine) };
        Scene::of(format!("21_far_{}", machine.tag()), &section)
    });
    FAR.into_iter().enumerate().map(move |(turn, (address, pc, below))| {
        let why = if below { nearest(&Some((11, 0)), &None) } else { nearest(&None, &Some((-8, 1))) };
        let registers = Registers { pc, sp: 0x7000, fp: 0x7020, lr: 0, first: 1 };
        let process = Process { section: address, stack: 0x7000, mask: 0 };
        let mut stated = scenes[turn % 3].why(format!("{address:x}_{pc:x}"), process, registers, vec![0; 16]);
        stated.lookup = LookupWhy::Unfound(why.clone());
        stated.step = StepWhy::Unfound { pc, why };
        stated
    })
}
