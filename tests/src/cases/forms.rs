//! Lookups in rows of every form: both machines and both byte orders, starts and offsets of every width, every count,
//! both bases, signed or not.

use super::{asked_at_edges, Case};
use crate::maker::{Function, Machine, Row, Section, SORTED};

/// Row starts by row type, and the size of a function that they fit in.
const STARTS: [([u32; 6], u32); 3] = [
    ([0, 1, 0x7f, 0x80, 0xfe, 0xff], 0x180),
    ([0, 0xff, 0x100, 0x7fff, 0x8000, 0xffff], 0x1_0100),
    ([0, 0xffff, 0x1_0000, 0xff_ffff, 0x100_0000, 0x1000_0000], 0x1000_0010),
];

/// Offsets by size code, among them the outermost of the width.
const OFFSETS: [[i32; 6]; 3] = [
    [-16, 127, -128, 8, -1, 0],
    [-16, 0x7fff, -0x8000, 0xff, 0x80, -0x81],
    [-16, i32::MAX, i32::MIN, 0x1_0000, 0x8000, -0x8001],
];

// One function for each width of starts and of offsets.
pub fn all() -> Vec<Case> {
    let of_machine = |machine: Machine| {
        let mut section = Section::new(machine);
        section.flags = SORTED;
        let mut end = -0x1000_0000;
        for (row_type, size_code) in [(0, 0), (0, 1), (0, 2), (1, 0), (1, 1), (1, 2), (2, 0), (2, 1), (2, 2)] {
            let start = end + i64::from(3 * size_code);
            section.functions.push(function(machine, start, row_type, size_code));
            end = start + i64::from(STARTS[usize::from(row_type)].1);
        }
        asked_at_edges(format!("ok_find_forms_{}", machine.tag()), &section)
    };
    Machine::ALL.map(of_machine).into()
}

fn function(machine: Machine, start: i64, row_type: u8, size_code: u8) -> Function {
    let (starts, size) = STARTS[usize::from(row_type)];
    let most = usize::from(machine.most_offsets());
    let rows = starts.iter().enumerate().map(|(number, &start)| {
        let mut offsets = OFFSETS[usize::from(size_code)];
        offsets.rotate_left(number);
        let mut row = Row::new(start, size_code, &offsets[..1 + number % most]);
        row.sp_base = number / most % 2 == 0;
        row.signed = number % 2 == 1;
        row
    });
    Function::new(start, size, row_type, rows.collect())
}

#[cfg(test)]
mod tests {
    use super::*;
    use crate::reader::{Base, Outcome, Place};
    use std::collections::BTreeSet;

    // Every combination that the rows are meant to have does come in the answers, and f0 is read as -16.
    #[test]
    fn every_form_is_answered() {
        let (mut forms, mut minus_16) = (BTreeSet::new(), 0);
        for case in all() {
            for question in &case.questions {
                if let Outcome::Found { row, .. } = question.expected.outcome {
                    let saved = |place| place != Place::Register;
                    let form = (row.base == Base::Sp, saved(row.ra), saved(row.fp), row.signed);
                    forms.insert((case.name.clone(), form));
                    minus_16 += u32::from(row.cfa_offset == -16);
                }
            }
        }
        // AMD64: two bases, FP saved or not. AArch64: two bases, three counts, of which some are signed.
        let of = |tag: &str| forms.iter().filter(|(name, _)| name.ends_with(tag)).count();
        assert_eq!((of("amd64"), of("aarch64"), of("aarch64be")), (4, 6, 6));
        assert!(forms.iter().all(|(name, form)| !(name.ends_with("amd64") && form.3)));
        assert!(minus_16 > 0);
    }
}
