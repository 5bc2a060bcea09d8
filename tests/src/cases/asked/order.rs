//! One address asked of sections whose functions are not in the order that their flag claims: the halving rule lands
//! where it lands, on a function that covers or not, and no other is looked for.

use super::{told, Place, Told};
use crate::cases::{case, function_at, refused, Case};
use crate::maker::{Machine, Section, RELATIVE, SORTED};
use crate::obvious::described;
use crate::ADDRESS;
use Told::{Damaged, NoFunction, Row};

/// The index that 14 is told with, functions by start and size, and places with what is read of them. Each function has
/// rows at 0 and 4.
type Order = (&'static str, u64, &'static [(i64, u32)], &'static [Place]);

pub fn all() -> Vec<Case> {
    let mut cases = Vec::new();
    for (turn, (name, index, functions, places)) in ORDERS.into_iter().enumerate() {
        let section = of_functions(turn, functions);
        let verdict = refused(14, index);
        let questions = told(&described(&section), verdict, ADDRESS, places);
        cases.push(case(format!("14_asked_{name}"), &section, verdict).asked(questions));
    }
    cases.extend(damaged_too());
    cases
}

fn of_functions(turn: usize, functions: &[(i64, u32)]) -> Section {
    let mut section = Section::new(Machine::ALL[turn % 3]);
    // What a start counts from changes no answer.
    section.flags = if turn.is_multiple_of(2) { SORTED } else { SORTED | RELATIVE };
    section.functions =
        functions.iter().zip(1..).map(|(&(start, size), tag)| function_at(tag, start, size, &[0, 4])).collect();
    section
}

const LOWEST: i64 = i32::MIN as i64;

const ORDERS: [Order; 9] = [
    // Each place is covered by one function, and the rule lands on none of them.
    (
        "falling",
        1,
        &[(0x1300, 0x100), (0x1200, 0x100), (0x1100, 0x100), (0x1000, 0x100)],
        &[
            (0xfff, NoFunction, 3),
            (0x1000, NoFunction, 3),
            (0x10ff, NoFunction, 3),
            (0x1100, NoFunction, 2),
            (0x1200, NoFunction, 2),
            (0x1350, NoFunction, 2),
        ],
    ),
    // Falling but for the last, on which every place from its start on lands.
    (
        "falling_to_the_last",
        1,
        &[(0x1200, 0x100), (0x1100, 0x100), (0x1000, 0x100), (0x1050, 0x1000)],
        &[
            (0xfff, NoFunction, 3),
            (0x1000, Row(2, 0), 2),
            (0x104f, Row(2, 1), 2),
            (0x1050, Row(3, 0), 2),
            (0x1054, Row(3, 1), 2),
            (0x1250, Row(3, 1), 2),
            (0x204f, Row(3, 1), 2),
            (0x2050, NoFunction, 2),
        ],
    ),
    (
        "one_far_up",
        2,
        &[(0x1000, 0x100), (0x1300, 0x100), (0x1100, 0x100), (0x1200, 0x100)],
        &[
            (0x1005, Row(0, 1), 3),
            (0x1100, Row(2, 0), 2),
            (0x1150, Row(2, 1), 2),
            (0x1250, Row(3, 1), 2),
            (0x1300, NoFunction, 2),
            (0x13ff, NoFunction, 2),
        ],
    ),
    // Two functions cover what the inner one covers; behind it only the outer one does.
    (
        "nested",
        1,
        &[(0x1000, 0x1000), (0x1100, 0x10)],
        &[
            (0x1000, Row(0, 0), 2),
            (0x10ff, Row(0, 1), 2),
            (0x1100, Row(1, 0), 1),
            (0x110f, Row(1, 1), 1),
            (0x1110, NoFunction, 1),
            (0x1fff, NoFunction, 1),
        ],
    ),
    (
        "same_start",
        1,
        &[(0x1000, 0x100), (0x1000, 0x80)],
        &[(0xfff, NoFunction, 2), (0x1000, Row(1, 0), 1), (0x107f, Row(1, 1), 1), (0x1080, NoFunction, 1)],
    ),
    (
        "listed_three_times",
        1,
        &[(0x1000, 0x100), (0x1000, 0x100), (0x1000, 0x100)],
        &[(0xfff, NoFunction, 2), (0x1000, Row(2, 0), 2), (0x10ff, Row(2, 1), 2), (0x1100, NoFunction, 2)],
    ),
    // The lowest start is out of reach of a field that counts from itself.
    (
        "in_the_widest",
        1,
        &[(LOWEST, u32::MAX), (0, 1)],
        &[
            (LOWEST as i128, Row(0, 0), 2),
            (-1, Row(0, 1), 2),
            (0, Row(1, 0), 1),
            (1, NoFunction, 1),
            (0x7fff_fffe, NoFunction, 1),
        ],
    ),
    (
        "size_0_inside",
        1,
        &[(0x1000, 0x100), (0x1080, 0)],
        &[(0x107f, Row(0, 1), 2), (0x1080, NoFunction, 1), (0x10ff, NoFunction, 1)],
    ),
    // Of five the third is compared first, and the fifth before the fourth.
    (
        "last_before_all",
        4,
        &[(0x1000, 0x100), (0x1100, 0x100), (0x1200, 0x100), (0x1300, 0x100), (0xf00, 0x100)],
        &[
            (0xf00, NoFunction, 3),
            (0x10ff, Row(0, 1), 3),
            (0x1150, Row(1, 1), 2),
            (0x1200, NoFunction, 2),
            (0x1350, NoFunction, 2),
        ],
    ),
];

// Where two cover, only the damage of the one landed on is told.
fn damaged_too() -> Vec<Case> {
    let places: [(&str, u64, [Place; 4]); 2] = [
        (
            "outer",
            0,
            [(0x1000, Damaged(0), 2), (0x10ff, Damaged(0), 2), (0x1100, Row(1, 0), 1), (0x1110, NoFunction, 1)],
        ),
        (
            "inner",
            1,
            [(0x1000, Row(0, 0), 2), (0x10ff, Row(0, 1), 2), (0x1100, Damaged(1), 1), (0x1110, NoFunction, 1)],
        ),
    ];
    let mut cases = Vec::new();
    for (turn, (name, index, places)) in places.into_iter().enumerate() {
        let mut section = of_functions(turn, &[(0x1000, 0x1000), (0x1100, 0x10)]);
        let (functions, verdict) = (described(&section), refused(12, index));
        section.functions[index as usize].rows[1].count = 0;
        let questions = told(&functions, verdict, ADDRESS, &places);
        cases.push(case(format!("12_asked_nested_{name}"), &section, verdict).asked(questions));
    }
    cases
}
