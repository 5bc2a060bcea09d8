//! Cases of rules 9, 10, 11 (first row offset) and 15: an entry by itself, and the sum of the row counts.

use super::{case, refused, sound, Case, ACCEPTED, FIRST_MIDDLE_LAST};
use crate::maker::{FirstRow, Function, Machine, Row, Section};
use crate::reader::Verdict;

type Damage = fn(&mut Function);

pub fn all() -> Vec<Case> {
    let mut cases = damaged_entries();
    cases.extend(row_types());
    cases.extend(repeat_sizes());
    cases.extend(first_row_edges());
    cases.extend(row_sums());
    cases
}

/// One entry damaged, and the number that it earns.
const DAMAGES: [(u64, &str, Damage); 12] = [
    (9, "info_bit_6", |f| f.high_bits = 1),
    (9, "info_bit_7", |f| f.high_bits = 2),
    (9, "info_bits_6_7", |f| f.high_bits = 3),
    (9, "row_type_3", |f| f.row_type = 3),
    (9, "no_rows_row_type_3", |f| (f.row_type, f.claimed_rows) = (3, Some(0))),
    (10, "repeat_0", |f| f.repeated = true),
    (10, "no_rows_repeat_0", |f| (f.repeated, f.claimed_rows) = (true, Some(0))),
    (11, "first_row_one_past", |f| f.first_row = FirstRow::PastEnd(1)),
    (11, "no_rows_one_past", |f| (f.first_row, f.claimed_rows) = (FirstRow::PastEnd(1), Some(0))),
    (11, "first_row_at_end", |f| f.first_row = FirstRow::PastEnd(0)),
    // Offset plus row would come round to the area's first bytes, were it of 32 bits.
    (11, "first_row_most", |f| f.first_row = FirstRow::At(u32::MAX)),
    (11, "no_rows_2_31_past", |f| (f.first_row, f.claimed_rows) = (FirstRow::At(1 << 31), Some(0))),
];

fn damaged_entries() -> Vec<Case> {
    let mut cases = Vec::new();
    for (number, name, damage) in DAMAGES {
        for machine in Machine::ALL {
            for entry in FIRST_MIDDLE_LAST {
                let mut section = sound(machine);
                damage(&mut section.functions[entry]);
                let name = format!("{number}_{name}_{}_e{entry}", machine.tag());
                cases.push(case(name, &section, refused(number, entry as u64)));
            }
        }
    }
    cases
}

// Every row type, over one function with a row that is sound for the types 0 to 2.
fn row_types() -> Vec<Case> {
    let mut cases = Vec::new();
    for row_type in 0..16 {
        let mut section = Section::new(Machine::Amd64);
        section.functions = vec![Function::new(0, 16, row_type, vec![Row::new(0, 0, &[8])])];
        let (begin, expected) = if row_type <= 2 { ("ok", ACCEPTED) } else { ("9", refused(9, 0)) };
        cases.push(case(format!("{begin}_every_row_type_{row_type}"), &section, expected));
    }
    cases
}

fn repeat_sizes() -> Vec<Case> {
    let edges = [
        ("ok_repeat_1", true, 1, ACCEPTED),
        ("ok_repeat_255", true, 255, ACCEPTED),
        ("10_repeat_0_alone", true, 0, refused(10, 1)),
        ("ok_plain_with_repeat_0", false, 0, ACCEPTED),
        ("ok_plain_with_repeat_255", false, 255, ACCEPTED),
    ];
    let mut cases = Vec::new();
    for machine in Machine::ALL {
        for (name, repeated, repeat, expected) in edges {
            let mut section = sound(machine);
            (section.functions[1].repeated, section.functions[1].repeat) = (repeated, repeat);
            cases.push(case(format!("{name}_{}", machine.tag()), &section, expected));
        }
    }
    cases
}

// The first row offset against row bytes of 0 and of 3, with a row and without.
fn first_row_edges() -> Vec<Case> {
    let edges: [(&str, usize, u32, u32, Verdict); 8] = [
        ("ok_no_row_bytes_offset_0", 0, 0, 0, ACCEPTED),
        ("11_no_row_bytes_offset_1", 0, 1, 0, refused(11, 0)),
        ("11_no_row_bytes_one_row", 0, 0, 1, refused(11, 0)),
        ("ok_3_bytes_offset_3_no_rows", 3, 3, 0, ACCEPTED),
        ("11_3_bytes_offset_4_no_rows", 3, 4, 0, refused(11, 0)),
        ("ok_3_bytes_offset_0_one_row", 3, 0, 1, ACCEPTED),
        ("11_3_bytes_offset_1_one_row", 3, 1, 1, refused(11, 0)),
        ("11_3_bytes_offset_0_two_rows", 3, 0, 2, refused(11, 0)),
    ];
    let mut cases = Vec::new();
    for machine in Machine::ALL {
        for (name, row_bytes, first_row, rows, expected) in edges {
            let mut section = Section::new(machine);
            let mut function = Function::new(0, 16, 0, Vec::new());
            (function.first_row, function.claimed_rows) = (FirstRow::At(first_row), Some(rows));
            section.functions = vec![function];
            // A row from SP with one offset, whichever of its first two bytes it is read from.
            section.tail = [0, 3, 3][..row_bytes].to_vec();
            cases.push(case(format!("{name}_{}", machine.tag()), &section, expected));
        }
    }
    cases
}

// Sixteen rows in four entries. A sum that is right only if 2^32 is dropped needs entries that share their rows and
// at least 1.4 million bytes, since no row has fewer than 3 bytes and rising starts ask wide ones: see `large`. An
// entry with a huge count by itself runs past the row bytes, 11.
fn row_sums() -> Vec<Case> {
    let wrong = [("0", 0), ("one_below", 15), ("one_above", 17), ("of_one_entry", 4), ("most", u32::MAX)];
    let mut cases = Vec::new();
    for machine in Machine::ALL {
        let tag = machine.tag();
        for (name, rows) in wrong {
            let mut section = sound(machine);
            section.claims.rows = Some(rows);
            cases.push(case(format!("15_header_rows_{name}_{tag}"), &section, refused(15, 0)));
        }
        let mut empty = Section::new(machine);
        empty.claims.rows = Some(1);
        cases.push(case(format!("15_no_functions_one_row_{tag}"), &empty, refused(15, 0)));
        cases.push(case(format!("15_shared_rows_counted_once_{tag}"), &shared_once(machine), refused(15, 0)));
        let mut huge = sound(machine);
        huge.functions[3].claimed_rows = Some(u32::MAX);
        cases.push(case(format!("11_row_count_most_{tag}"), &huge, refused(11, 3)));
    }
    cases
}

// Two entries that share two rows have four between them; the header speaks of the two.
fn shared_once(machine: Machine) -> Section {
    let rows = vec![Row::new(0, 0, &[8]), Row::new(1, 0, &[16])];
    let mut second = Function::new(16, 16, 0, Vec::new());
    second.first_row = FirstRow::SharedWith(0);
    let mut section = Section::new(machine);
    section.functions = vec![Function::new(0, 16, 0, rows), second];
    section.claims.rows = Some(2);
    section
}
