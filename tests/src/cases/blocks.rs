//! Lookups in repeated blocks (PCMASK): the place in a block is a remainder, whatever the repeat size; and in plain
//! functions, where a repeat size means nothing.

use super::questions::{said, Said};
use super::{case, function_at, Case, ACCEPTED};
use crate::maker::{Function, Machine, Section, SORTED};
use crate::ADDRESS;
use Said::{NoFunction, NoRow, Row};

pub fn all() -> Vec<Case> {
    let mut cases: Vec<Case> = REPEATS.into_iter().zip(Machine::ALL).map(|(sizes, on)| of_sizes(&sizes, on)).collect();
    cases.push(of_12_and_8());
    cases.push(plain_with_a_repeat_size());
    cases
}

/// Repeat sizes for one section each: powers of 2, where a mask does as well, and others, where it does not.
const REPEATS: [[u8; 4]; 3] = [[1, 3, 16, 200], [2, 7, 12, 128], [8, 24, 100, 255]];

// A function for each repeat size; every other one has no row at the beginning of its block.
fn of_sizes(repeats: &[u8; 4], machine: Machine) -> Case {
    let mut section = Section::new(machine);
    section.flags = if machine == Machine::Aarch64 { 0 } else { SORTED };
    let mut places = Vec::new();
    let mut start = -0x1001;
    for (&repeat, index) in repeats.iter().zip(0..) {
        let function = repeated(start, repeat, index % 2 == 1);
        places.extend(changes(&walked(index, start, &function)));
        start += i64::from(function.size) + 5;
        section.functions.push(function);
    }
    let name = format!("ok_find_repeated_{}", machine.tag());
    case(name, &section, ACCEPTED).asked(said(&section, ADDRESS, &places))
}

// Three and a half blocks with a row at each of some places of a block, and two that begin past its end.
fn repeated(start: i64, repeat: u8, late: bool) -> Function {
    let end = u32::from(repeat);
    let mut starts = vec![0, end / 3, end / 2, end - 1, end, end + 7];
    starts.dedup();
    let starts = if late { &starts[1..] } else { &starts[..] };
    let mut function = function_at(i32::from(repeat), start, 3 * end + end / 2 + 1, starts);
    (function.repeated, function.repeat) = (true, repeat);
    function
}

// What is said of each place of a repeated function, counted up place by place: o comes back to 0 at the repeat size.
fn walked(index: u64, start: i64, function: &Function) -> Vec<(i128, Said)> {
    let mut places = vec![(i128::from(start) - 1, NoFunction)];
    let mut o = 0;
    for _ in 0..function.size {
        let begun = function.rows.iter().filter(|row| row.start <= o).count() as u64;
        let said = if begun == 0 { NoRow(index) } else { Row(index, begun - 1) };
        places.push((i128::from(start) + places.len() as i128 - 1, said));
        o = if o + 1 == u32::from(function.repeat) { 0 } else { o + 1 };
    }
    places.push((i128::from(start) + i128::from(function.size), NoFunction));
    places
}

// The places at which something else is said than at the one before, and the ones before them.
fn changes(places: &[(i128, Said)]) -> Vec<(i128, Said)> {
    let changed = |at: usize| at > 0 && at < places.len() && places[at].1 != places[at - 1].1;
    (0..places.len()).filter(|&at| changed(at) || changed(at + 1)).map(|at| places[at]).collect()
}

// By hand. 12: a mask of 11 would take 4 for 0 and 12 for 8. 8: the remainder and the mask agree. The starts 13 and 53
// are no multiples, so that a remainder of the distance itself would be another.
fn of_12_and_8() -> Case {
    let mut section = Section::new(Machine::Amd64);
    section.flags = SORTED;
    section.functions = vec![function_at(1, 13, 30, &[0, 4, 8, 11, 12]), function_at(2, 53, 20, &[3, 6])];
    for (function, repeat) in section.functions.iter_mut().zip([12, 8]) {
        (function.repeated, function.repeat) = (true, repeat);
    }
    let places = [
        (12, NoFunction),
        (13, Row(0, 0)),
        (16, Row(0, 0)),
        (17, Row(0, 1)),
        (20, Row(0, 1)),
        (21, Row(0, 2)),
        (23, Row(0, 2)),
        (24, Row(0, 3)),
        (25, Row(0, 0)),
        (28, Row(0, 0)),
        (29, Row(0, 1)),
        (36, Row(0, 3)),
        (37, Row(0, 0)),
        (42, Row(0, 1)),
        (43, NoFunction),
        (53, NoRow(1)),
        (55, NoRow(1)),
        (56, Row(1, 0)),
        (58, Row(1, 0)),
        (59, Row(1, 1)),
        (60, Row(1, 1)),
        (61, NoRow(1)),
        (64, Row(1, 0)),
        (68, Row(1, 1)),
        (69, NoRow(1)),
        (72, Row(1, 0)),
        (73, NoFunction),
    ];
    case("ok_find_repeated_12_and_8", &section, ACCEPTED).asked(said(&section, ADDRESS, &places))
}

// The same rows once plain with repeat sizes that would matter, once repeated.
fn plain_with_a_repeat_size() -> Case {
    let mut section = Section::new(Machine::Aarch64Big);
    section.functions = [0, 0x100, 0x200].map(|start| function_at(1, start, 0x20, &[0, 4, 0x10])).into();
    (section.functions[0].repeat, section.functions[1].repeat) = (8, 1);
    (section.functions[2].repeated, section.functions[2].repeat) = (true, 8);
    let mut places = Vec::new();
    for (function, start) in [(0, 0), (1, 0x100)] {
        places.extend(
            [(0, 0), (3, 0), (4, 1), (7, 1), (8, 1), (0xf, 1), (0x10, 2), (0x1f, 2)]
                .map(|(o, row)| (start + o, Row(function, row))),
        );
    }
    places.extend(
        [(0, 0), (3, 0), (4, 1), (7, 1), (8, 0), (0xf, 1), (0x10, 0), (0x1f, 1)]
            .map(|(o, row)| (0x200 + o, Row(2, row))),
    );
    case("ok_find_plain_with_repeat_size", &section, ACCEPTED).asked(said(&section, ADDRESS, &places))
}
