//! Lookups in functions whose rows come in runs: some that are written alike, one after the other, then others. Each is
//! passed by its own length, and the offsets of those that are passed change nothing.

use super::questions::{said, Said};
use super::{asked_at_edges, case, Case, ACCEPTED};
use crate::maker::{Function, Machine, Row, Section, SORTED};
use crate::ADDRESS;

/// How a row is written. A and B differ in the base, C and D in the width of their offsets, A and F in the signed bit,
/// and are as long; C, E and G are longer, each than the one before.
#[derive(Clone, Copy)]
struct Form {
    count: usize,
    size_code: u8,
    sp_base: bool,
    signed: bool,
}

const A: Form = Form { count: 1, size_code: 0, sp_base: true, signed: false };
const B: Form = Form { sp_base: false, ..A };
const C: Form = Form { count: 2, ..A };
const D: Form = Form { size_code: 1, ..A };
const E: Form = Form { size_code: 2, ..A };
const F: Form = Form { signed: true, ..A };
const G: Form = Form { count: 2, ..E };

/// Runs of one to three rows, into rows that are longer, shorter, as long, and back.
const RUNS: [Form; 24] = [A, A, A, B, B, A, C, C, D, C, A, E, E, E, F, F, A, G, G, A, G, A, B, A];

/// How far each row starts above the one before it.
const STEP: u32 = 3;

/// The rows of a long run.
const LONG: u32 = 80;

pub fn all() -> Vec<Case> {
    let mut cases = Vec::new();
    for machine in Machine::ALL {
        for row_type in 0..3 {
            let rows = rows_of(&RUNS, |_| false);
            let section = section_of(machine, vec![function(0x1000, row_type, rows)]);
            cases.push(asked_at_edges(format!("ok_find_runs_{}_{}", machine.tag(), 1 << row_type), &section));
        }
        cases.push(long_run(machine));
        cases.push(other_offsets(machine));
    }
    cases
}

// One run from the first row to the last.
fn long_run(machine: Machine) -> Case {
    let rows = rows_of(&[G; LONG as usize], |_| false);
    let section = section_of(machine, vec![function(0x1000, 0, rows)]);
    let last = i128::from(STEP * LONG - 1);
    let step = i128::from(STEP);
    let places =
        [(0, 0), (step - 1, 0), (step, 1), (40 * step - 1, 39), (40 * step, 40), (last - step, 78), (last, 79)];
    let places = places.map(|(o, number)| (0x1000 + o, Said::Row(0, number)));
    case(format!("ok_find_long_run_{}", machine.tag()), &section, ACCEPTED).asked(said(&section, ADDRESS, &places))
}

// For each row a function in which every other row has other offsets, the outermost of their width.
fn other_offsets(machine: Machine) -> Case {
    let begin = |number: usize| 0x1000 + 0x100 * number as i64;
    let of_row = |number| function(begin(number), 0, rows_of(&RUNS, |other| other != number));
    let section = section_of(machine, (0..RUNS.len()).map(of_row).collect());
    let ask = |number: usize| {
        let row = i128::from(begin(number)) + i128::from(STEP) * number as i128;
        let said = Said::Row(number as u64, number as u64);
        [(row, said), (row + i128::from(STEP) - 1, said)]
    };
    let places: Vec<_> = (0..RUNS.len()).flat_map(ask).collect();
    case(format!("ok_find_other_offsets_{}", machine.tag()), &section, ACCEPTED).asked(said(&section, ADDRESS, &places))
}

fn section_of(machine: Machine, functions: Vec<Function>) -> Section {
    let mut section = Section::new(machine);
    section.flags = SORTED;
    section.functions = functions;
    section
}

fn function(start: i64, row_type: u8, rows: Vec<Row>) -> Function {
    Function::new(start, STEP * rows.len() as u32, row_type, rows)
}

// Offsets that tell the rows apart; the outermost where a row is another.
fn rows_of(forms: &[Form], other: impl Fn(usize) -> bool) -> Vec<Row> {
    let row = |(number, form): (usize, &Form)| {
        let offsets = match (other(number), form.size_code) {
            (false, _) => [8 + number as i32, -16 - number as i32],
            (true, 0) => [127, -128],
            (true, 1) => [0x7fff, -0x8000],
            (true, _) => [i32::MAX, i32::MIN],
        };
        let row = Row::new(STEP * number as u32, form.size_code, &offsets[..form.count]);
        Row { sp_base: form.sp_base, signed: form.signed, ..row }
    };
    forms.iter().enumerate().map(row).collect()
}

#[cfg(test)]
mod tests {
    use super::*;
    use crate::reader::Outcome;
    use std::collections::BTreeSet;

    #[test]
    fn every_row_is_found() {
        let all = all();
        assert_eq!(all.len(), 15);
        for case in all {
            let number = |outcome| match outcome {
                Outcome::Found { number, .. } => Some(number),
                _ => None,
            };
            let found: BTreeSet<u64> = case.questions.iter().filter_map(|q| number(q.expected.outcome)).collect();
            let few = if case.name.contains("long") { 6 } else { RUNS.len() };
            assert_eq!(found.len(), few, "{}", case.name);
        }
    }
}
