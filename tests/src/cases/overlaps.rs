//! Lookups where functions of an unsorted section cover the same place: the two lowest indexes are told, whatever
//! stands in the entries and however many cover it.

use super::questions::{said, Said};
use super::{case, function_at, Case, ACCEPTED};
use crate::maker::{Machine, Section, RELATIVE};
use crate::ADDRESS;
use Said::{Disputed, NoFunction, NoRow, Row};

/// Functions by start, size and the start of their one row, and what is said of places.
type Overlap = (&'static str, &'static [(i64, u32, u32)], &'static [(i128, Said)]);

pub fn all() -> Vec<Case> {
    let mut cases = Vec::new();
    for (place, (name, functions, places)) in OVERLAPS.into_iter().enumerate() {
        let mut section = Section::new(Machine::ALL[place % 3]);
        // What a start counts from changes no answer.
        section.flags = if place % 2 == 0 { 0 } else { RELATIVE };
        section.functions =
            functions.iter().zip(1..).map(|(&(start, size, row), tag)| function_at(tag, start, size, &[row])).collect();
        cases.push(case(format!("ok_find_{name}"), &section, ACCEPTED).asked(said(&section, ADDRESS, places)));
    }
    cases
}

const OVERLAPS: [Overlap; 12] = [
    (
        "two_overlap",
        &[(0, 0x10, 0), (8, 0x10, 0)],
        &[
            (-1, NoFunction),
            (0, Row(0, 0)),
            (7, Row(0, 0)),
            (8, Disputed(0, 1)),
            (0xf, Disputed(0, 1)),
            (0x10, Row(1, 0)),
            (0x17, Row(1, 0)),
            (0x18, NoFunction),
        ],
    ),
    (
        "two_overlap_later_first",
        &[(8, 0x10, 0), (0, 0x10, 0)],
        &[
            (-1, NoFunction),
            (0, Row(1, 0)),
            (7, Row(1, 0)),
            (8, Disputed(0, 1)),
            (0xf, Disputed(0, 1)),
            (0x10, Row(0, 0)),
            (0x17, Row(0, 0)),
            (0x18, NoFunction),
        ],
    ),
    (
        "one_byte_in_common",
        &[(0x20, 0x10, 0), (0x2f, 1, 0), (0x10, 0x11, 0)],
        &[
            (0x1f, Row(2, 0)),
            (0x20, Disputed(0, 2)),
            (0x21, Row(0, 0)),
            (0x2e, Row(0, 0)),
            (0x2f, Disputed(0, 1)),
            (0x30, NoFunction),
        ],
    ),
    (
        "adjoining_unsorted",
        &[(0x20, 0x10, 0), (0, 0x10, 0), (0x10, 0x10, 0)],
        &[
            (-1, NoFunction),
            (0, Row(1, 0)),
            (0xf, Row(1, 0)),
            (0x10, Row(2, 0)),
            (0x1f, Row(2, 0)),
            (0x20, Row(0, 0)),
            (0x2f, Row(0, 0)),
            (0x30, NoFunction),
        ],
    ),
    (
        "listed_twice",
        &[(0, 0x10, 0), (0, 0x10, 0)],
        &[(-1, NoFunction), (0, Disputed(0, 1)), (0xf, Disputed(0, 1)), (0x10, NoFunction)],
    ),
    (
        "listed_twice_with_others",
        &[(0x40, 8, 0), (0, 0x10, 0), (0x50, 8, 0), (0, 0x10, 0), (0x60, 8, 0)],
        &[
            (0, Disputed(1, 3)),
            (0xf, Disputed(1, 3)),
            (0x10, NoFunction),
            (0x40, Row(0, 0)),
            (0x50, Row(2, 0)),
            (0x67, Row(4, 0)),
        ],
    ),
    (
        "three_overlap",
        &[(0, 0x30, 0), (0x10, 0x10, 0), (0x18, 0x20, 0)],
        &[
            (0xf, Row(0, 0)),
            (0x10, Disputed(0, 1)),
            (0x17, Disputed(0, 1)),
            (0x18, Disputed(0, 1)),
            (0x1f, Disputed(0, 1)),
            (0x20, Disputed(0, 2)),
            (0x2f, Disputed(0, 2)),
            (0x30, Row(2, 0)),
            (0x37, Row(2, 0)),
            (0x38, NoFunction),
        ],
    ),
    (
        "three_overlap_lowest_last",
        &[(0x18, 0x20, 0), (0x10, 0x10, 0), (0, 0x30, 0)],
        &[
            (0xf, Row(2, 0)),
            (0x10, Disputed(1, 2)),
            (0x18, Disputed(0, 1)),
            (0x1f, Disputed(0, 1)),
            (0x20, Disputed(0, 2)),
            (0x2f, Disputed(0, 2)),
            (0x30, Row(0, 0)),
        ],
    ),
    (
        "all_overlap",
        &[(5, 1, 0), (4, 3, 0), (3, 5, 0), (2, 7, 0), (1, 9, 0), (0, 11, 0)],
        &[
            (-1, NoFunction),
            (0, Row(5, 0)),
            (1, Disputed(4, 5)),
            (2, Disputed(3, 4)),
            (3, Disputed(2, 3)),
            (4, Disputed(1, 2)),
            (5, Disputed(0, 1)),
            (6, Disputed(1, 2)),
            (7, Disputed(2, 3)),
            (8, Disputed(3, 4)),
            (9, Disputed(4, 5)),
            (10, Row(5, 0)),
            (11, NoFunction),
        ],
    ),
    // A function of size 0 covers nothing, not even inside another.
    (
        "size_0_inside_another",
        &[(8, 0, 0), (0, 0x10, 0), (8, 0, 0), (0, 0, 0)],
        &[(0, Row(1, 0)), (7, Row(1, 0)), (8, Row(1, 0)), (9, Row(1, 0)), (0xf, Row(1, 0)), (0x10, NoFunction)],
    ),
    (
        "widest_overlap",
        &[(i32::MAX as i64, u32::MAX, 0), (i32::MIN as i64 + 1, u32::MAX, 0), (0, 1, 0)],
        &[
            (-0x8000_0000, NoFunction),
            (-0x7fff_ffff, Row(1, 0)),
            (-1, Row(1, 0)),
            (0, Disputed(1, 2)),
            (1, Row(1, 0)),
            (0x7fff_fffe, Row(1, 0)),
            (0x7fff_ffff, Disputed(0, 1)),
            (0x8000_0000, Row(0, 0)),
            (0x1_7fff_fffd, Row(0, 0)),
            (0x1_7fff_fffe, NoFunction),
        ],
    ),
    // Two functions are too many before any row is looked for: their rows begin at 8.
    (
        "overlap_without_a_row_there",
        &[(0, 0x10, 8), (0, 0x20, 8), (0x40, 0x10, 8)],
        &[
            (0, Disputed(0, 1)),
            (8, Disputed(0, 1)),
            (0x10, Row(1, 0)),
            (0x40, NoRow(2)),
            (0x47, NoRow(2)),
            (0x48, Row(2, 0)),
        ],
    ),
];
