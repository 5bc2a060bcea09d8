//! Lookups in functions that are odd and allowed: of size 0, without rows, with rows that begin late or lie beyond the
//! size, with rows of other functions.

use super::questions::{said, Said};
use super::{case, function_at, Case, ACCEPTED};
use crate::maker::{FirstRow, Function, Machine, Section, SORTED};
use crate::ADDRESS;
use Said::{NoFunction, NoRow, Row};

type Place = (i128, Said);

/// A section's functions, in order, and what is said of places in it.
type Odd = (&'static str, fn() -> Vec<Function>, &'static [Place]);

pub fn all() -> Vec<Case> {
    let mut cases = Vec::new();
    for (place, (name, functions, places)) in ODD.into_iter().enumerate() {
        let mut section = Section::new(Machine::ALL[place % 3]);
        section.functions = functions();
        section.flags = SORTED;
        cases.push(case(format!("ok_find_{name}"), &section, ACCEPTED).asked(said(&section, ADDRESS, places)));
        // Not one of them covers what another covers, so that the flag changes the counts alone.
        section.flags = 0;
        cases.push(case(format!("ok_find_{name}_unsorted"), &section, ACCEPTED).asked(said(&section, ADDRESS, places)));
    }
    cases
}

const ODD: [Odd; 9] = [
    (
        "size_0_alone",
        || vec![function_at(1, 0x10, 0, &[0])],
        &[(0xf, NoFunction), (0x10, NoFunction), (0x11, NoFunction)],
    ),
    (
        "size_0_before",
        || vec![function_at(1, 0x10, 0, &[0]), function_at(2, 0x10, 0, &[0]), function_at(3, 0x10, 4, &[0])],
        &[(0xf, NoFunction), (0x10, Row(2, 0)), (0x13, Row(2, 0)), (0x14, NoFunction)],
    ),
    (
        "size_0_behind",
        || vec![function_at(1, 0x10, 4, &[0]), function_at(2, 0x14, 0, &[0]), function_at(3, 0x14, 0, &[0])],
        &[(0xf, NoFunction), (0x10, Row(0, 0)), (0x13, Row(0, 0)), (0x14, NoFunction), (0x15, NoFunction)],
    ),
    (
        "size_0_between",
        || vec![function_at(1, 0x10, 4, &[0]), function_at(2, 0x14, 0, &[]), function_at(3, 0x14, 4, &[0])],
        &[(0x13, Row(0, 0)), (0x14, Row(2, 0)), (0x17, Row(2, 0)), (0x18, NoFunction)],
    ),
    (
        "size_1",
        || vec![function_at(1, -1, 1, &[0]), function_at(2, 0, 1, &[1]), function_at(3, 1, 1, &[0, 1])],
        &[(-2, NoFunction), (-1, Row(0, 0)), (0, NoRow(1)), (1, Row(2, 0)), (2, NoFunction)],
    ),
    (
        "no_rows",
        || vec![function_at(1, -0x20, 0x10, &[]), function_at(2, 0, 0x10, &[0]), function_at(3, 0x10, 0x10, &[])],
        &[
            (-0x21, NoFunction),
            (-0x20, NoRow(0)),
            (-0x11, NoRow(0)),
            (-0x10, NoFunction),
            (-1, NoFunction),
            (0, Row(1, 0)),
            (0xf, Row(1, 0)),
            (0x10, NoRow(2)),
            (0x1f, NoRow(2)),
            (0x20, NoFunction),
        ],
    ),
    (
        "late_first_row",
        || vec![function_at(1, -0x20, 0x10, &[4, 8]), function_at(2, 0x100, 0x200, &[0x100, 0x1ff])],
        &[
            (-0x20, NoRow(0)),
            (-0x1d, NoRow(0)),
            (-0x1c, Row(0, 0)),
            (-0x19, Row(0, 0)),
            (-0x18, Row(0, 1)),
            (-0x11, Row(0, 1)),
            (-0x10, NoFunction),
            (0x100, NoRow(1)),
            (0x1ff, NoRow(1)),
            (0x200, Row(1, 0)),
            (0x2fe, Row(1, 0)),
            (0x2ff, Row(1, 1)),
            (0x300, NoFunction),
        ],
    ),
    (
        "rows_beyond_size",
        || {
            vec![
                function_at(1, 0x1000, 0x10, &[0, 0xf, 0x10, 0x11]),
                function_at(2, 0x1020, 0x10, &[0x10, 0x20]),
                function_at(3, 0x1040, 0x10, &[0x8, 0x1_0000]),
                function_at(4, 0x1060, 0x10, &[0xffff_ffff]),
            ]
        },
        &[
            (0x1000, Row(0, 0)),
            (0x100e, Row(0, 0)),
            (0x100f, Row(0, 1)),
            (0x1010, NoFunction),
            (0x1011, NoFunction),
            (0x1020, NoRow(1)),
            (0x102f, NoRow(1)),
            (0x1030, NoFunction),
            (0x1040, NoRow(2)),
            (0x1047, NoRow(2)),
            (0x1048, Row(2, 0)),
            (0x104f, Row(2, 0)),
            (0x1060, NoRow(3)),
            (0x106f, NoRow(3)),
            (0x1070, NoFunction),
        ],
    ),
    (
        "shared_rows",
        || vec![function_at(1, 0x1000, 0x10, &[0, 4, 0x18]), sharing(0x1020, 0x20, 0), sharing(0x1040, 0x4, 0)],
        &[
            (0x1000, Row(0, 0)),
            (0x1003, Row(0, 0)),
            (0x1004, Row(0, 1)),
            (0x100f, Row(0, 1)),
            (0x1010, NoFunction),
            (0x1020, Row(1, 0)),
            (0x1023, Row(1, 0)),
            (0x1024, Row(1, 1)),
            (0x1037, Row(1, 1)),
            (0x1038, Row(1, 2)),
            (0x103f, Row(1, 2)),
            (0x1040, Row(2, 0)),
            (0x1043, Row(2, 0)),
            (0x1044, NoFunction),
        ],
    ),
];

// A function with the rows of another one, whose starts have one byte.
fn sharing(start: i64, size: u32, with: usize) -> Function {
    let mut function = Function::new(start, size, 0, Vec::new());
    function.first_row = FirstRow::SharedWith(with);
    function
}
