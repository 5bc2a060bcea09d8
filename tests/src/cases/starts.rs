//! Cases of rule 14: entries in order, by effective start, exactly.

use super::{asked_at_edges, case, refused, sound, Case, ACCEPTED, SECOND_MIDDLE_LAST};
use crate::maker::{Function, Machine, Section, Start, RELATIVE, SORTED};
use crate::reader::Verdict;

const OK: Verdict = ACCEPTED;
const MIN: i32 = i32::MIN;
const MAX: i32 = i32::MAX;
const WIDEST: u32 = u32::MAX;

pub fn all() -> Vec<Case> {
    let mut cases = at_every_entry();
    cases.extend(by_flags());
    cases.extend(edges("", SORTED, &PLAIN));
    cases.extend(edges("rel_", SORTED | RELATIVE, &TIED_TO_FIELD));
    cases.extend(unsorted());
    cases
}

fn at_every_entry() -> Vec<Case> {
    let mut cases = Vec::new();
    for (name, below) in [("one_below_end", 1), ("at_start_before", 0x100), ("far_below", 0x1000)] {
        for machine in Machine::ALL {
            for entry in SECOND_MIDDLE_LAST {
                let mut section = sound(machine);
                let end = section.effective_start(entry - 1) + 0x100;
                section.functions[entry].start = Start::Effective(end - below);
                let name = format!("14_{name}_{}_e{entry}", machine.tag());
                cases.push(case(name, &section, refused(14, entry as u64)));
            }
        }
    }
    cases
}

// The same overlap under every set of known flags.
fn by_flags() -> Vec<Case> {
    let expected = [OK, refused(14, 2), OK, refused(14, 2), OK, refused(14, 2), OK, refused(14, 2)];
    let mut cases = Vec::new();
    for (flags, verdict) in (0_u8..).zip(expected) {
        let mut section = sound(Machine::Amd64);
        section.flags = flags;
        section.functions[2].start = Start::Effective(0x11ff);
        let begin = if verdict == OK { "ok" } else { "14" };
        cases.push(case(format!("{begin}_overlap_under_flags_{flags}"), &section, verdict));
    }
    cases
}

/// Start fields and sizes of entries without rows, in a sorted section.
type Edge = (&'static str, &'static [(i32, u32)], Verdict);

const PLAIN: [Edge; 24] = [
    ("at_end", &[(0, 16), (16, 16)], OK),
    ("one_below", &[(0, 16), (15, 16)], refused(14, 1)),
    ("gap", &[(0, 16), (17, 1), (1000, 1)], OK),
    ("one_entry_alone", &[(MIN, WIDEST)], OK),
    ("size_0_thrice_at_one_start", &[(5, 0), (5, 0), (5, 1)], OK),
    ("below_size_0", &[(5, 0), (4, 0)], refused(14, 1)),
    ("size_0_inside", &[(0, 16), (15, 0)], refused(14, 1)),
    ("size_0_at_end", &[(0, 16), (16, 0), (16, 4)], OK),
    ("one_below_size_0_at_end", &[(0, 16), (16, 0), (15, 4)], refused(14, 2)),
    ("same_twice", &[(0, 16), (0, 16)], refused(14, 1)),
    ("negative", &[(-100, 50), (-50, 50), (0, 10)], OK),
    ("negative_one_below", &[(-100, 50), (-51, 50)], refused(14, 1)),
    ("over_zero", &[(-8, 16), (8, 1)], OK),
    ("over_zero_one_below", &[(-8, 16), (7, 1)], refused(14, 1)),
    // A start is signed: read as unsigned, -1 would be above 0.
    ("minus_1_then_0", &[(-1, 0), (0, 0)], OK),
    ("0_then_minus_1", &[(0, 0), (-1, 0)], refused(14, 1)),
    // A size is not: read as signed, this end would be -1.
    ("size_widest_then_0", &[(0, WIDEST), (0, 0)], refused(14, 1)),
    ("size_2_31_then_0", &[(0, 1 << 31), (0, 0)], refused(14, 1)),
    // From the lowest start over the widest size to the highest start, exactly.
    ("lowest_widest_highest", &[(MIN, WIDEST), (MAX, WIDEST)], OK),
    ("second_lowest_widest_highest", &[(MIN + 1, WIDEST), (MAX, 0)], refused(14, 1)),
    // Ends that come round to a low number where 32 bits are kept.
    ("end_past_2_32", &[(MAX, WIDEST), (MAX, 0)], refused(14, 1)),
    ("end_2_31_then_lowest", &[(1, MAX as u32), (MIN, 0)], refused(14, 1)),
    ("end_2_32_less_2_then_0", &[(-1, WIDEST), (0, 0)], refused(14, 1)),
    ("minus_1_to_0_at_last", &[(-3, 1), (-2, 1), (-1, 1), (-1, 1)], refused(14, 3)),
];

/// The same under flag 0x4: entry i's field stands at 28 + 20i, so that a start is that much above its field. Where
/// fields alone obey rule 14 the effective starts do too, since positions rise; the other way they need not.
const TIED_TO_FIELD: [Edge; 16] = [
    ("fields_fall", &[(100, 10), (90, 10), (80, 10), (70, 10)], OK),
    ("fields_fall_size_0", &[(100, 0), (80, 0), (60, 0)], OK),
    ("fields_fall_by_21", &[(100, 0), (80, 0), (59, 0)], refused(14, 2)),
    ("fields_equal", &[(0, 20), (0, 20), (0, 20)], OK),
    ("fields_equal_size_21", &[(0, 20), (0, 21), (0, 20)], refused(14, 2)),
    ("fields_rise_below_end", &[(0, 100), (80, 1)], OK),
    ("fields_rise", &[(0, 100), (79, 1)], refused(14, 1)),
    ("fields_rise_at_last", &[(0, 20), (1, 100), (2, 1)], refused(14, 2)),
    ("negative_fields", &[(-1000, 500), (-520, 500), (-40, 0)], OK),
    ("negative_fields_one_below", &[(-1000, 500), (-521, 500)], refused(14, 1)),
    // Effective starts above 2^31 - 1, where one of 32 bits would be negative.
    ("highest_fields", &[(MAX, 20), (MAX, 20)], OK),
    ("highest_fields_size_21", &[(MAX, 21), (MAX, 20)], refused(14, 1)),
    ("highest_then_0", &[(MAX, 0), (0, 0)], refused(14, 1)),
    ("0_then_highest", &[(0, 0), (MAX, 0)], OK),
    ("lowest_widest_at_end", &[(MIN, WIDEST), (MAX - 20, 0)], OK),
    ("lowest_widest_one_below", &[(MIN, WIDEST), (MAX - 21, 0)], refused(14, 1)),
];

fn edges(group: &str, flags: u8, table: &[Edge]) -> Vec<Case> {
    let of_one = |&(name, fields, verdict): &Edge| {
        let begin = if verdict == OK { "ok" } else { "14" };
        case(format!("{begin}_{group}{name}"), &of_fields(Machine::Amd64, flags, fields), verdict)
    };
    let mut cases: Vec<Case> = table.iter().map(of_one).collect();
    // Once more in the other byte order, where every field is of other bytes.
    for &(name, fields, verdict) in table.iter().filter(|edge| edge.2 != OK) {
        let section = of_fields(Machine::Aarch64Big, flags, fields);
        cases.push(case(format!("14_big_{group}{name}"), &section, verdict));
    }
    cases
}

// Without the sorted flag any order will do; a lookup finds that most places are covered twice, and none has a row.
fn unsorted() -> Vec<Case> {
    let mut cases = Vec::new();
    for machine in Machine::ALL {
        for (name, flags) in [("", 0), ("_rel", RELATIVE)] {
            let section = of_fields(machine, flags, &[(100, 50), (0, WIDEST), (MIN, 1), (MAX, 1), (100, 50)]);
            let name = format!("ok_unsorted_any_order{name}_{}", machine.tag());
            cases.push(asked_at_edges(name, &section));
        }
    }
    cases
}

fn of_fields(machine: Machine, flags: u8, fields: &[(i32, u32)]) -> Section {
    let function = |&(field, size): &(i32, u32)| {
        let mut function = Function::new(0, size, 0, Vec::new());
        function.start = Start::Field(field);
        function
    };
    let mut section = Section::new(machine);
    section.flags = flags;
    section.functions = fields.iter().map(function).collect();
    section
}
