//! One address asked of functions without rows, in repeated blocks, under flag 0x4 and at both ends of the starts,
//! sound and damaged.

use super::{machine_of, told, Edit, Told};
use crate::cases::{case, function_at, refused, Case, ACCEPTED};
use crate::maker::{FirstRow, Function, Machine, Section, Start, RELATIVE, SORTED};
use crate::obvious::described;
use crate::reader::Verdict;
use crate::ADDRESS;
use Told::{Damaged, NoFunction, NoRow, Row};

type EditOfOne = fn(&mut Function);

pub fn all() -> Vec<Case> {
    let mut cases = without_rows();
    cases.extend(blocks());
    cases.extend(relative());
    cases.push(widest());
    cases
}

// A function without rows, one whose first row starts late, one of size 0, one that begins where that one does, and one
// without rows whose first row offset is that of the row area's end.
fn few_rows(machine: Machine) -> Section {
    let mut section = Section::new(machine);
    section.flags = SORTED;
    section.functions = vec![
        function_at(1, 0x1000, 0x10, &[]),
        function_at(2, 0x1010, 0x10, &[8]),
        function_at(3, 0x1020, 0, &[0]),
        function_at(4, 0x1020, 0x10, &[0]),
        function_at(5, 0x1030, 0x10, &[]),
    ];
    section
}

// 23 by a function without rows and before its first row; also a function without rows can be damaged.
fn without_rows() -> Vec<Case> {
    let edits: [(&str, Verdict, EditOfOne); 4] = [
        ("ok_asked_few_rows", ACCEPTED, |_| ()),
        ("9_asked_few_rows", refused(9, 0), |f| f.row_type = 3),
        ("10_asked_few_rows", refused(10, 0), |f| f.repeated = true),
        ("11_asked_few_rows", refused(11, 0), |f| f.first_row = FirstRow::PastEnd(1)),
    ];
    let mut cases = Vec::new();
    for (turn, (name, verdict, edit)) in edits.into_iter().enumerate() {
        let mut section = few_rows(machine_of(turn));
        let functions = described(&section);
        edit(&mut section.functions[0]);
        let first = if verdict == ACCEPTED { NoRow(0) } else { Damaged(0) };
        let places = [
            (0x1000, first, 3),
            (0x100f, first, 3),
            (0x1010, NoRow(1), 2),
            (0x1017, NoRow(1), 2),
            (0x1018, Row(1, 0), 2),
            (0x1020, Row(3, 0), 3),
            (0x1030, NoRow(4), 2),
            (0x103f, NoRow(4), 2),
            (0x1040, NoFunction, 2),
        ];
        cases.push(case(name, &section, verdict).asked(told(&functions, verdict, ADDRESS, &places)));
    }
    cases
}

// Blocks of 12 bytes and of 255, the rows of the second from 4 on. A row that starts where no block reaches is tried
// like any other.
fn blocks() -> Vec<Case> {
    let edits: [(&str, Verdict, Edit); 3] = [
        ("ok_asked_blocks", ACCEPTED, |_| ()),
        ("13_asked_blocks", refused(13, 0), |s| s.functions[0].rows[3].start = 11),
        ("12_asked_blocks", refused(12, 0), |s| s.functions[0].rows[3].count = 0),
    ];
    let mut cases = Vec::new();
    for (turn, (name, verdict, edit)) in edits.into_iter().enumerate() {
        let mut section = Section::new(machine_of(turn));
        section.flags = SORTED;
        section.functions =
            vec![function_at(1, 0x1000, 42, &[0, 6, 11, 20]), function_at(2, 0x1100, 0x1000, &[4, 0xfe])];
        (section.functions[0].repeated, section.functions[0].repeat) = (true, 12);
        (section.functions[1].repeated, section.functions[1].repeat) = (true, 255);
        let functions = described(&section);
        edit(&mut section);
        let first = |number| if verdict == ACCEPTED { Row(0, number) } else { Damaged(0) };
        let places = [
            (0x1000, first(0), 2),
            (0x100b, first(2), 2),
            (0x100c, first(0), 2),
            (0x1012, first(1), 2),
            (0x1014, first(1), 2),
            (0x1029, first(0), 2),
            (0x102a, NoFunction, 2),
            (0x1103, NoRow(1), 1),
            (0x1104, Row(1, 0), 1),
            (0x11fe, Row(1, 1), 1),
            (0x11ff, NoRow(1), 1),
            (0x1203, Row(1, 0), 1),
        ];
        cases.push(case(name, &section, verdict).asked(told(&functions, verdict, ADDRESS, &places)));
    }
    cases
}

// Start fields that fall from 100 to 70, of functions that begin at 128, 138, 148 and 158 behind no auxiliary header.
fn relative() -> Vec<Case> {
    let edits: [(&str, usize, Verdict, EditOfOne); 3] = [
        ("ok_asked_rel", 1, ACCEPTED, |_| ()),
        ("9_asked_rel", 0, refused(9, 1), |f| f.high_bits = 1),
        ("13_asked_rel", 255, refused(13, 1), |f| f.rows[1].start = 0),
    ];
    let mut cases = Vec::new();
    for (turn, (name, auxiliary, verdict, edit)) in edits.into_iter().enumerate() {
        let mut section = Section::new(machine_of(turn));
        section.flags = SORTED | RELATIVE;
        section.auxiliary = vec![0xff; auxiliary];
        for (tag, field) in (1..).zip([100, 90, 80, 70]) {
            let mut function = function_at(tag, 0, 10, &[0, 4]);
            function.start = Start::Field(field);
            section.functions.push(function);
        }
        let functions = described(&section);
        edit(&mut section.functions[1]);
        let second = |number| if verdict == ACCEPTED { Row(1, number) } else { Damaged(1) };
        let behind = auxiliary as i128;
        let places = [
            (behind + 100, NoFunction, 3),
            (behind + 127, NoFunction, 3),
            (behind + 128, Row(0, 0), 3),
            (behind + 137, Row(0, 1), 3),
            (behind + 138, second(0), 2),
            (behind + 147, second(1), 2),
            (behind + 148, Row(2, 0), 2),
            (behind + 158, Row(3, 0), 2),
            (behind + 167, Row(3, 1), 2),
            (behind + 168, NoFunction, 2),
        ];
        cases.push(case(name, &section, verdict).asked(told(&functions, verdict, ADDRESS, &places)));
    }
    cases
}

// The lowest start and the highest, which is that of a damaged function of the widest size, asked from the middle of
// the addresses and from both ends, also where only a wrapped distance would land on one of them.
fn widest() -> Case {
    let (low, high) = (i128::from(i32::MIN), i128::from(i32::MAX));
    let mut section = Section::new(Machine::Aarch64Big);
    section.flags = SORTED;
    section.functions = vec![
        function_at(1, i32::MIN.into(), 0x10, &[0, 8]),
        function_at(2, i32::MAX.into(), u32::MAX, &[0, 0x8000_0000, 0xffff_ffff]),
    ];
    let functions = described(&section);
    section.functions[1].rows[2].start = 0x8000_0000;
    let verdict = refused(13, 1);
    let places = [
        (low - 1, NoFunction, 2),
        (low, Row(0, 0), 2),
        (low + 0xf, Row(0, 1), 2),
        (low + 0x10, NoFunction, 2),
        (-1, NoFunction, 2),
        (0, NoFunction, 2),
        (high - 1, NoFunction, 2),
        (high, Damaged(1), 1),
        (high + 0xffff_fffe, Damaged(1), 1),
        (high + 0xffff_ffff, NoFunction, 1),
        (high + (1 << 32), NoFunction, 1),
        (1 << 62, NoFunction, 1),
    ];
    let above = [places[5], places[7], places[8], places[9]];
    let (two_64, most) = (1 << 64, u64::MAX);
    let far_above = [(two_64 + low, NoFunction, 1), (two_64 - 1, NoFunction, 1)];
    let far_below = [(high - two_64, NoFunction, 2), (1 - two_64, NoFunction, 2)];
    let questions = [
        told(&functions, verdict, ADDRESS, &places),
        told(&functions, verdict, 0, &above),
        told(&functions, verdict, 0, &far_above),
        told(&functions, verdict, most, &places[..6]),
        told(&functions, verdict, most, &far_below),
    ];
    case("13_asked_widest", &section, verdict).asked(questions.concat())
}
