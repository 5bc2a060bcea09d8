//! Cases of rules 11 to 13: rows, at every place of a section and on both sides of every edge.

use super::{case, refused, sound, Case, ACCEPTED, FIRST_MIDDLE_LAST, SECOND_MIDDLE_LAST};
use crate::maker::{Function, Machine, Row, Section};
use crate::reader::Verdict;

pub fn all() -> Vec<Case> {
    let mut cases = cut_rows();
    cases.extend(damaged_infos());
    cases.extend(starts_that_do_not_rise());
    cases.extend(last_bytes());
    cases.extend(counts());
    cases.extend(start_edges());
    cases.extend(full_width());
    cases
}

/// How many bytes of a row are kept, by the width of its start and its whole length.
type Kept = fn(usize, usize) -> usize;

/// Ways to end the row area inside a row.
const CUTS: [(&str, Kept); 4] = [
    ("no_byte_of_row", |_, _| 0),
    ("fixed_one_short", |width, _| width),
    ("no_byte_of_offsets", |width, _| width + 1),
    ("offsets_one_short", |_, length| length - 1),
];

fn cut_rows() -> Vec<Case> {
    let mut cases = Vec::new();
    for (name, kept) in CUTS {
        for (machine, entry, row) in places(FIRST_MIDDLE_LAST) {
            let mut section = sound(machine);
            let width = section.functions[entry].start_width();
            let length = section.functions[entry].rows[row].length(width);
            section.end_inside_row(entry, row, kept(width, length));
            let name = format!("11_{name}_{}_e{entry}_r{row}", machine.tag());
            cases.push(case(name, &section, refused(11, entry as u64)));
        }
    }
    cases
}

type InfoDamage = fn(&mut Row, Machine);

const INFO_DAMAGES: [(&str, InfoDamage); 4] = [
    ("offset_size_3", |row, _| row.size_code = 3),
    ("count_0", |row, _| row.count = 0),
    ("count_one_above", |row, machine| row.count = machine.most_offsets() + 1),
    ("count_15", |row, _| row.count = 15),
];

fn damaged_infos() -> Vec<Case> {
    let mut cases = Vec::new();
    for (name, damage) in INFO_DAMAGES {
        for (machine, entry, row) in places(FIRST_MIDDLE_LAST) {
            let mut section = sound(machine);
            damage(&mut section.functions[entry].rows[row], machine);
            let name = format!("12_{name}_{}_e{entry}_r{row}", machine.tag());
            cases.push(case(name, &section, refused(12, entry as u64)));
        }
    }
    cases
}

// Against the row before, which the first row of a function does not have: it may be lower than the last row of the
// entry before, and the sound section's are.
fn starts_that_do_not_rise() -> Vec<Case> {
    let mut cases = Vec::new();
    for (name, below) in [("equal_starts", 0), ("start_one_below", 1)] {
        for (machine, entry, row) in places(SECOND_MIDDLE_LAST) {
            let mut section = sound(machine);
            let rows = &mut section.functions[entry].rows;
            // The rows before stand 1 higher, so that there is room below them.
            rows[..row].iter_mut().for_each(|before| before.start += 1);
            rows[row].start = rows[row - 1].start - below;
            let name = format!("13_{name}_{}_e{entry}_r{row}", machine.tag());
            cases.push(case(name, &section, refused(13, entry as u64)));
        }
    }
    cases
}

// Every machine with the first, a middle and the last entry, and each of these rows of it.
fn places(rows: [usize; 3]) -> Vec<(Machine, usize, usize)> {
    let mut places = Vec::new();
    for machine in Machine::ALL {
        for entry in FIRST_MIDDLE_LAST {
            places.extend(rows.map(|row| (machine, entry, row)));
        }
    }
    places
}

// One row of every form, which ends exactly with the row bytes, or one byte past them.
fn last_bytes() -> Vec<Case> {
    let mut cases = Vec::new();
    for machine in Machine::ALL {
        for count in 1..=machine.most_offsets() {
            for (row_type, size_code) in [(0, 0), (0, 1), (0, 2), (1, 0), (1, 1), (1, 2), (2, 0), (2, 1), (2, 2)] {
                let row = Row::new(7, size_code, &[16, -8, -16][..usize::from(count)]);
                let mut section = one_function(machine, row_type, vec![row]);
                let form = format!("t{row_type}_s{size_code}_c{count}_{}", machine.tag());
                cases.push(case(format!("ok_row_ends_area_{form}"), &section, ACCEPTED));
                let length = section.functions[0].rows[0].length(1 << row_type);
                section.end_inside_row(0, 0, length - 1);
                cases.push(case(format!("11_row_one_past_{form}"), &section, refused(11, 0)));
            }
        }
    }
    cases
}

// Every offset count, and offset size 3 with each that is allowed; bytes enough follow for all of them.
fn counts() -> Vec<Case> {
    let mut cases = Vec::new();
    for machine in Machine::ALL {
        let most = machine.most_offsets();
        let all_counts = (0..16).map(|count| (count, 0, (1..=most).contains(&count)));
        let size_3 = (1..=most).map(|count| (count, 3, false));
        for (count, size_code, allowed) in all_counts.chain(size_3) {
            let mut row = Row::new(0, size_code, &[]);
            row.count = count;
            let mut section = one_function(machine, 0, vec![row]);
            section.tail = vec![8; 64];
            let (begin, expected) = if allowed { ("ok", ACCEPTED) } else { ("12", refused(12, 0)) };
            let name = format!("{begin}_every_count_{count}_s{size_code}_{}", machine.tag());
            cases.push(case(name, &section, expected));
        }
    }
    cases
}

const OK: Verdict = ACCEPTED;

/// Two row starts, by row type: unsigned, of the section's byte order, and strictly rising.
const START_EDGES: [(&str, u8, [u32; 2], Verdict); 21] = [
    ("ok_starts_0_1_of_1", 0, [0, 1], OK),
    ("13_starts_0_0_of_1", 0, [0, 0], refused(13, 0)),
    ("13_starts_1_0_of_1", 0, [1, 0], refused(13, 0)),
    ("ok_starts_7f_80_of_1", 0, [0x7f, 0x80], OK),
    ("13_starts_80_7f_of_1", 0, [0x80, 0x7f], refused(13, 0)),
    ("ok_starts_fe_ff_of_1", 0, [0xfe, 0xff], OK),
    ("13_starts_ff_ff_of_1", 0, [0xff, 0xff], refused(13, 0)),
    ("13_starts_ff_0_of_1", 0, [0xff, 0], refused(13, 0)),
    ("ok_starts_ff_100_of_2", 1, [0xff, 0x100], OK),
    ("13_starts_100_ff_of_2", 1, [0x100, 0xff], refused(13, 0)),
    ("ok_starts_7fff_8000_of_2", 1, [0x7fff, 0x8000], OK),
    ("13_starts_8000_7fff_of_2", 1, [0x8000, 0x7fff], refused(13, 0)),
    ("13_starts_ffff_ffff_of_2", 1, [0xffff, 0xffff], refused(13, 0)),
    ("13_starts_ffff_0_of_2", 1, [0xffff, 0], refused(13, 0)),
    ("ok_starts_ffff_10000_of_4", 2, [0xffff, 0x1_0000], OK),
    ("13_starts_10000_ffff_of_4", 2, [0x1_0000, 0xffff], refused(13, 0)),
    ("ok_starts_sign_of_4", 2, [0x7fff_ffff, 0x8000_0000], OK),
    ("13_starts_sign_of_4", 2, [0x8000_0000, 0x7fff_ffff], refused(13, 0)),
    ("ok_starts_highest_of_4", 2, [0xffff_fffe, 0xffff_ffff], OK),
    ("13_starts_highest_twice_of_4", 2, [0xffff_ffff, 0xffff_ffff], refused(13, 0)),
    ("13_starts_highest_0_of_4", 2, [0xffff_ffff, 0], refused(13, 0)),
];

fn start_edges() -> Vec<Case> {
    let mut cases = Vec::new();
    for machine in Machine::ALL {
        for (name, row_type, starts, expected) in START_EDGES {
            let rows = starts.map(|start| Row::new(start, 0, &[8])).to_vec();
            let section = one_function(machine, row_type, rows);
            cases.push(case(format!("{name}_{}", machine.tag()), &section, expected));
        }
    }
    cases
}

// As many rows as starts of one byte can tell apart, and one more.
fn full_width() -> Vec<Case> {
    let rows = |count: u32| (0..count).map(|start| Row::new(start % 256, 0, &[8])).collect();
    let section = |count| one_function(Machine::Amd64, 0, rows(count));
    vec![case("ok_256_rows_of_1", &section(256), ACCEPTED), case("13_257_rows_of_1", &section(257), refused(13, 0))]
}

fn one_function(machine: Machine, row_type: u8, rows: Vec<Row>) -> Section {
    let mut section = Section::new(machine);
    section.functions = vec![Function::new(0x1000, 0x100, row_type, rows)];
    section
}
