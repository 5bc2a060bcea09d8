//! Cases that look odd and break no rule: what document 01 ignores or allows.

use super::questions::{found, no_function, no_row, Question};
use super::{asked_at_edges, case, sound, Case, ACCEPTED};
use crate::maker::{FirstRow, Function, Machine, Row, Section, Start, FRAME_POINTER, RELATIVE};
use crate::reader::{self, Base, Place};
use crate::ADDRESS;

type Edit = fn(&mut Section);

pub fn all() -> Vec<Case> {
    let mut cases = Vec::new();
    for (turn, machine) in Machine::ALL.into_iter().enumerate() {
        for (place, (name, edit)) in EDITS.into_iter().enumerate() {
            let mut section = sound(machine);
            edit(&mut section);
            let name = format!("ok_{name}_{}", machine.tag());
            // Lookups on one machine for each edit are enough to be stored.
            let asked = place % 3 == turn;
            cases.push(if asked { asked_at_edges(name, &section) } else { case(name, &section, ACCEPTED) });
        }
        let inside = case(format!("ok_rows_shared_in_part_{}", machine.tag()), &rows_read_twice(machine), ACCEPTED);
        cases.push(inside.asked(of_rows_read_twice(machine)));
    }
    cases
}

const EDITS: [(&str, Edit); 27] = [
    ("key_bit", |s| s.functions.iter_mut().for_each(|f| f.key_b = true)),
    ("padding", |s| s.functions.iter_mut().for_each(|f| f.padding = 0xffff)),
    ("frame_pointer_flag", |s| s.flags |= FRAME_POINTER),
    ("repeat_without_pcmask", |s| s.functions.iter_mut().for_each(|f| f.repeat = 16)),
    ("pcmask_with_key_bit", |s| pcmask(&mut s.functions[2], 16, true)),
    ("pcmask_everywhere", |s| s.functions.iter_mut().for_each(|f| pcmask(f, 16, false))),
    ("row_start_at_repeat", |s| pcmask(&mut s.functions[0], 12, false)),
    ("row_start_above_repeat", |s| pcmask(&mut s.functions[0], 1, false)),
    ("row_start_at_size", |s| s.functions[0].size = s.functions[0].rows[3].start),
    ("row_start_beyond_size", |s| s.functions[1].rows[3].start = 0xffff),
    ("rows_in_size_0", |s| s.functions.iter_mut().for_each(|f| f.size = 0)),
    ("first_row_start_above_0", |s| s.functions[2].rows.drain(..1).for_each(drop)),
    ("signed_bits", |s| every_row(s, |row| row.signed = true)),
    ("fp_bases", |s| every_row(s, |row| row.sp_base = false)),
    ("unused_before", |s| s.functions[0].gap = vec![0xff; 7]),
    ("unused_between", |s| s.functions[2].gap = vec![0xff; 7]),
    ("unused_after", |s| s.tail = vec![0xff; 7]),
    ("rows_in_another_order", |s| s.placed_last = Some(0)),
    ("all_without_rows", |s| s.functions.iter_mut().for_each(|f| f.rows.clear())),
    ("last_without_rows", |s| s.functions[3].rows.clear()),
    ("two_share_rows", |s| share(s, 3, 0)),
    ("all_share_rows", |s| (1..4).for_each(|function| share(s, function, 0))),
    ("no_functions_row_bytes", |s| (s.functions, s.tail) = (Vec::new(), vec![0xff; 9])),
    ("auxiliary_1", |s| s.auxiliary = vec![0xff]),
    ("auxiliary_255", |s| s.auxiliary = (0..255).collect()),
    // A whole header in the auxiliary header, with starts that count from their own fields behind it.
    ("auxiliary_is_a_header", |s| (s.auxiliary, s.flags) = (Section::new(Machine::Amd64).bytes(), s.flags | RELATIVE)),
    ("negative_starts", |s| s.functions.iter_mut().for_each(lower)),
];

fn pcmask(function: &mut Function, repeat: u8, key_b: bool) {
    (function.repeated, function.repeat, function.key_b) = (true, repeat, key_b);
}

fn every_row(section: &mut Section, edit: fn(&mut Row)) {
    section.functions.iter_mut().flat_map(|function| &mut function.rows).for_each(edit);
}

fn share(section: &mut Section, function: usize, with: usize) {
    let row_type = section.functions[with].row_type;
    let sharing = &mut section.functions[function];
    (sharing.first_row, sharing.row_type) = (FirstRow::SharedWith(with), row_type);
    sharing.rows.clear();
}

fn lower(function: &mut Function) {
    if let Start::Effective(start) = &mut function.start {
        *start -= 0x10_0000;
    }
}

// The second function's rows are the last two of the first's.
fn rows_read_twice(machine: Machine) -> Section {
    let rows = (0..4).map(|start| Row::new(start, 0, &[8])).collect();
    let mut second = Function::new(16, 16, 0, Vec::new());
    (second.first_row, second.claimed_rows) = (FirstRow::At(6), Some(2));
    let mut section = Section::new(machine);
    section.functions = vec![Function::new(0, 16, 0, rows), second];
    section
}

// Places 16 to 31 are the second function's: its rows start at 2 and 3, and are numbered from 0 in it.
fn of_rows_read_twice(machine: Machine) -> Vec<Question> {
    let row = |start| reader::Row {
        start,
        base: Base::Sp,
        cfa_offset: 8,
        ra: if machine == Machine::Amd64 { Place::AtOffset(-8) } else { Place::Register },
        fp: Place::Register,
        signed: false,
    };
    let answers = [
        (0, found(0, 0, row(0), 2)),
        (2, found(0, 2, row(2), 2)),
        (15, found(0, 3, row(3), 2)),
        (16, no_row(1, 2)),
        (17, no_row(1, 2)),
        (18, found(1, 0, row(2), 2)),
        (19, found(1, 1, row(3), 2)),
        (31, found(1, 1, row(3), 2)),
        (32, no_function(2)),
    ];
    answers.map(|(d, expected)| Question { address: ADDRESS, pc: ADDRESS + d, expected, asked: None }).to_vec()
}

#[cfg(test)]
mod tests {
    use super::*;
    use crate::reader::lookup;

    /// The edits of what changes no answer: all it can move are rows and starts of the same functions.
    const IGNORED: [&str; 10] = [
        "key_bit",
        "padding",
        "frame_pointer_flag",
        "repeat_without_pcmask",
        "unused_before",
        "unused_between",
        "unused_after",
        "rows_in_another_order",
        "auxiliary_1",
        "auxiliary_255",
    ];

    #[test]
    fn what_is_ignored_changes_no_answer() {
        for machine in Machine::ALL {
            let plain = asked_at_edges("plain", &sound(machine));
            for name in IGNORED {
                let (_, edit) = EDITS.into_iter().find(|(other, _)| *other == name).expect("an edit of this name");
                let mut section = sound(machine);
                edit(&mut section);
                let (edited, unedited) = (section.bytes(), &plain.section);
                assert_ne!(edited, *unedited, "{name} changes nothing");
                for Question { address, pc, .. } in &plain.questions {
                    let answers = (lookup(&edited, *address, *pc), lookup(unedited, *address, *pc));
                    assert_eq!(answers.0, answers.1, "{name} on {}, PC {pc:x}", machine.tag());
                }
            }
        }
    }
}
