//! Lookups at PCs far from the section, and in sections loaded near both ends of the addresses: the distance is a whole
//! number, and one of fewer bits would take some of these PCs for others.

use super::questions::{defined, edges, pc_at, said, wrapped, Question, Said};
use super::{case, function_at, Case, ACCEPTED};
use crate::maker::{Machine, Section, RELATIVE, SORTED};
use crate::obvious::described;
use crate::ADDRESS;
use std::collections::BTreeSet;
use Said::{Disputed, NoFunction, NoRow, Row};

pub fn all() -> Vec<Case> {
    let mut cases = Vec::new();
    for (name, machine, flags) in FORMS {
        let section = on_both_sides(machine, flags);
        let at_the_ends = ADDRESSES.iter().flat_map(|&address| near_an_end(&section, address));
        let far = [0x4000_0000_0000_0000, 0xc000_0000_0000_0000].into_iter().flat_map(|from| far_from(&section, from));
        let questions = at_the_ends.chain(far).collect();
        cases.push(case(format!("ok_find_far_{name}"), &section, ACCEPTED).asked(questions));
    }
    cases.push(widest());
    cases.push(widest_over_others());
    cases
}

const FORMS: [(&str, Machine, u8); 3] = [
    ("sorted", Machine::Amd64, SORTED),
    ("unsorted", Machine::Aarch64Big, 0),
    ("sorted_rel", Machine::Aarch64, SORTED | RELATIVE),
];

/// Addresses at which a function lies beyond 0 or 2^64, wholly or in part, or just not.
const ADDRESSES: [u64; 8] =
    [0, 0xff0, 0x1000, 0x1001, u64::MAX - 0x101f, u64::MAX - 0x100f, u64::MAX - 0xfff, u64::MAX];

// A function on either side of the section, 32 bytes with rows at 0 and 16.
fn on_both_sides(machine: Machine, flags: u8) -> Section {
    let mut section = Section::new(machine);
    section.flags = flags;
    section.functions = vec![function_at(1, -0x1000, 0x20, &[0, 16]), function_at(2, 0x1000, 0x20, &[0, 16])];
    section
}

// At every edge that a PC reaches, and at the PCs that a wrapped distance would take for the others.
fn near_an_end(section: &Section, address: u64) -> Vec<Question> {
    let functions = described(section);
    let places = edges(&functions);
    let mut questions = defined(section.flags & SORTED != 0, &functions, address, &places);
    questions.extend(wrapped(section, address, &places));
    questions
}

// Both ends of the addresses, and the first and last place of each function moved by a power of 2: all functions lie
// within 0x2000 of the section, so that none covers any of these.
fn far_from(section: &Section, address: u64) -> Vec<Question> {
    let distances = [1 << 32, 1 << 33, 1 << 48, 1 << 63].into_iter().flat_map(|far: i128| [-far, far]);
    let moved = distances.flat_map(|far| [-0x1000, -0xfe1, 0x1000, 0x101f].map(|d| d + far));
    let ends = [0, u64::MAX].map(|pc| i128::from(pc) - i128::from(address));
    let places: BTreeSet<i128> = moved.chain(ends).filter(|&d| pc_at(address, d).is_some()).collect();
    let none_covers: Vec<(i128, Said)> = places.into_iter().map(|d| (d, NoFunction)).collect();
    said(section, address, &none_covers)
}

const LOWEST: i64 = i32::MIN as i64;
const HIGHEST: i64 = i32::MAX as i64;
const LOW: i128 = LOWEST as i128;
const HIGH: i128 = HIGHEST as i128;

// The lowest start and the highest, each with the widest size: the first ends where the second begins. The last row
// starts at the size, where no place of the function is.
fn widest() -> Case {
    let starts = [0, 0x7fff_ffff, 0x8000_0000, 0xffff_fffe, 0xffff_ffff];
    let mut section = Section::new(Machine::Amd64);
    section.flags = SORTED;
    section.functions = vec![function_at(1, LOWEST, u32::MAX, &starts), function_at(2, HIGHEST, u32::MAX, &starts)];
    let places = [
        (LOW - 1, NoFunction),
        (LOW, Row(0, 0)),
        (-2, Row(0, 0)),
        (-1, Row(0, 1)),
        (0, Row(0, 2)),
        (1, Row(0, 2)),
        (HIGH - 2, Row(0, 2)),
        (HIGH - 1, Row(0, 3)),
        (HIGH, Row(1, 0)),
        (HIGH + 0x7fff_fffe, Row(1, 0)),
        (HIGH + 0x7fff_ffff, Row(1, 1)),
        (HIGH + 0x8000_0000, Row(1, 2)),
        (HIGH + 0xffff_fffe, Row(1, 3)),
        (HIGH + 0xffff_ffff, NoFunction),
        (HIGH + 0x1_0000_0000, NoFunction),
    ];
    let mut questions = said(&section, ADDRESS, &places);
    // From address 0 everything below is out of reach; from the highest address everything above.
    questions.extend(said(&section, 0, &places[4..]));
    questions.extend(said(&section, u64::MAX, &places[..5]));
    questions.extend(wrapped(&section, 0, &BTreeSet::from([LOW, -2, -1])));
    questions.extend(wrapped(&section, u64::MAX, &BTreeSet::from([1, HIGH - 1, HIGH, HIGH + 0xffff_fffe])));
    case("ok_find_widest", &section, ACCEPTED).asked(questions)
}

// A function of the widest size over small ones, one of them without rows; its end is not below its start.
fn widest_over_others() -> Case {
    let mut section = Section::new(Machine::Aarch64);
    section.functions = vec![
        function_at(1, -0x100, 0x10, &[0]),
        function_at(2, -0x80, u32::MAX, &[4]),
        function_at(3, 0x1000, 0x10, &[]),
        function_at(4, HIGHEST, 0x10, &[0]),
    ];
    let end = -0x80 + 0xffff_ffff;
    let places = [
        (-0x101, NoFunction),
        (-0x100, Row(0, 0)),
        (-0xf1, Row(0, 0)),
        (-0xf0, NoFunction),
        (-0x81, NoFunction),
        (-0x80, NoRow(1)),
        (-0x7d, NoRow(1)),
        (-0x7c, Row(1, 0)),
        (0xfff, Row(1, 0)),
        (0x1000, Disputed(1, 2)),
        (0x100f, Disputed(1, 2)),
        (0x1010, Row(1, 0)),
        (HIGH - 1, Row(1, 0)),
        (HIGH, Disputed(1, 3)),
        (HIGH + 0xf, Disputed(1, 3)),
        (HIGH + 0x10, Row(1, 0)),
        (end - 1, Row(1, 0)),
        (end, NoFunction),
    ];
    case("ok_find_widest_over_others", &section, ACCEPTED).asked(said(&section, ADDRESS, &places))
}
