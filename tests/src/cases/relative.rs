//! Lookups under flag 0x4: a start counts from its own field, which for entry i stands at 28 + 20i behind an auxiliary
//! header, so that order and places are those of the effective starts.

use super::questions::{said, Said};
use super::{case, function_at, Case, ACCEPTED};
use crate::maker::{Machine, Section, Start, RELATIVE, SORTED};
use crate::ADDRESS;
use Said::{Disputed, NoFunction, Row};

const MIN: i32 = i32::MIN;
const MAX: i32 = i32::MAX;

/// Flags, bytes of auxiliary header, start fields with sizes, and what is said of places.
type Relative = (&'static str, u8, usize, &'static [(i32, u32)], &'static [(i128, Said)]);

pub fn all() -> Vec<Case> {
    let mut cases = Vec::new();
    for (place, (name, flags, auxiliary, fields, places)) in RELATIVES.into_iter().enumerate() {
        let mut section = Section::new(Machine::ALL[place % 3]);
        section.flags = flags;
        section.auxiliary = vec![0xff; auxiliary];
        for (&(field, size), tag) in fields.iter().zip(1..) {
            let mut function = function_at(tag, 0, size, &[0, 4]);
            function.start = Start::Field(field);
            section.functions.push(function);
        }
        cases.push(case(format!("ok_find_{name}"), &section, ACCEPTED).asked(said(&section, ADDRESS, places)));
    }
    cases
}

const IN_ORDER: u8 = SORTED | RELATIVE;

const RELATIVES: [Relative; 9] = [
    // From 128, 138, 148 and 158 on.
    (
        "rel_fields_fall",
        IN_ORDER,
        0,
        &[(100, 10), (90, 10), (80, 10), (70, 10)],
        &[
            (70, NoFunction),
            (100, NoFunction),
            (127, NoFunction),
            (128, Row(0, 0)),
            (131, Row(0, 0)),
            (132, Row(0, 1)),
            (137, Row(0, 1)),
            (138, Row(1, 0)),
            (147, Row(1, 1)),
            (148, Row(2, 0)),
            (157, Row(2, 1)),
            (158, Row(3, 0)),
            (167, Row(3, 1)),
            (168, NoFunction),
        ],
    ),
    // From 28, 48 and 68 on, where the fields alone would be one place.
    (
        "rel_fields_equal",
        IN_ORDER,
        0,
        &[(0, 20), (0, 20), (0, 20)],
        &[
            (0, NoFunction),
            (19, NoFunction),
            (27, NoFunction),
            (28, Row(0, 0)),
            (47, Row(0, 1)),
            (48, Row(1, 0)),
            (67, Row(1, 1)),
            (68, Row(2, 0)),
            (87, Row(2, 1)),
            (88, NoFunction),
        ],
    ),
    // From -972, -472 and 28 on.
    (
        "rel_fields_negative",
        IN_ORDER,
        0,
        &[(-1000, 500), (-520, 500), (-40, 16)],
        &[
            (-1000, NoFunction),
            (-973, NoFunction),
            (-972, Row(0, 0)),
            (-969, Row(0, 0)),
            (-968, Row(0, 1)),
            (-520, Row(0, 1)),
            (-473, Row(0, 1)),
            (-472, Row(1, 0)),
            (0, Row(1, 1)),
            (27, Row(1, 1)),
            (28, Row(2, 0)),
            (43, Row(2, 1)),
            (44, NoFunction),
        ],
    ),
    // From 0, 4 and 8 on: the auxiliary header moves the fields by 5.
    (
        "rel_auxiliary_5",
        IN_ORDER,
        5,
        &[(-33, 4), (-49, 4), (-65, 8)],
        &[
            (-33, NoFunction),
            (-5, NoFunction),
            (-1, NoFunction),
            (0, Row(0, 0)),
            (3, Row(0, 0)),
            (4, Row(1, 0)),
            (7, Row(1, 0)),
            (8, Row(2, 0)),
            (12, Row(2, 1)),
            (15, Row(2, 1)),
            (16, NoFunction),
        ],
    ),
    // Starts above 2^31 - 1, which no field holds.
    (
        "rel_fields_highest",
        IN_ORDER,
        255,
        &[(MAX, 20), (MAX, 20)],
        &[
            (0x7fff_ffff, NoFunction),
            (0x7fff_ffff + 282, NoFunction),
            (0x7fff_ffff + 283, Row(0, 0)),
            (0x7fff_ffff + 302, Row(0, 1)),
            (0x7fff_ffff + 303, Row(1, 0)),
            (0x7fff_ffff + 322, Row(1, 1)),
            (0x7fff_ffff + 323, NoFunction),
            (-0x8000_0000 + 282, NoFunction),
        ],
    ),
    (
        "rel_fields_lowest",
        IN_ORDER,
        0,
        &[(MIN, 16), (MIN, 16)],
        &[
            (-0x8000_0000, NoFunction),
            (-0x8000_0000 + 27, NoFunction),
            (-0x8000_0000 + 28, Row(0, 0)),
            (-0x8000_0000 + 43, Row(0, 1)),
            (-0x8000_0000 + 44, NoFunction),
            (-0x8000_0000 + 47, NoFunction),
            (-0x8000_0000 + 48, Row(1, 0)),
            (-0x8000_0000 + 63, Row(1, 1)),
            (-0x8000_0000 + 64, NoFunction),
        ],
    ),
    // From 28, 48 and 68 on: the second and the third have 68 in common.
    (
        "rel_unsorted",
        RELATIVE,
        0,
        &[(0, 20), (0, 21), (0, 20)],
        &[
            (0, NoFunction),
            (20, NoFunction),
            (28, Row(0, 0)),
            (47, Row(0, 1)),
            (48, Row(1, 0)),
            (67, Row(1, 1)),
            (68, Disputed(1, 2)),
            (69, Row(2, 0)),
            (72, Row(2, 1)),
            (87, Row(2, 1)),
            (88, NoFunction),
        ],
    ),
    // From 128 on twice, where the fields alone are apart.
    (
        "rel_unsorted_same_place",
        RELATIVE,
        0,
        &[(100, 10), (80, 10), (0, 10)],
        &[
            (0, NoFunction),
            (68, Row(2, 0)),
            (77, Row(2, 1)),
            (80, NoFunction),
            (100, NoFunction),
            (127, NoFunction),
            (128, Disputed(0, 1)),
            (137, Disputed(0, 1)),
            (138, NoFunction),
        ],
    ),
    // Without the flag the same fields are the starts.
    (
        "fields_are_starts",
        0,
        0,
        &[(100, 10), (80, 10), (0, 10)],
        &[
            (0, Row(2, 0)),
            (9, Row(2, 1)),
            (10, NoFunction),
            (28, NoFunction),
            (80, Row(1, 0)),
            (89, Row(1, 1)),
            (90, NoFunction),
            (100, Row(0, 0)),
            (109, Row(0, 1)),
            (128, NoFunction),
        ],
    ),
];
