//! Lookups for the number of entries compared: every function of sorted sections, and every gap, by the halving rule.

use super::questions::{found, no_function, Question};
use super::{case, function_at, Case, ACCEPTED};
use crate::maker::{Machine, Section, SORTED};
use crate::obvious::described;
use crate::ADDRESS;

/// So many sorted functions, and the number of entries compared where 0, 1, 2 .. of them begin at or before d.
const HALVINGS: [(usize, &[u64]); 11] = [
    (0, &[0]),
    (1, &[1, 1]),
    (2, &[2, 2, 1]),
    (3, &[2, 2, 2, 2]),
    (4, &[3, 3, 2, 2, 2]),
    (5, &[3, 3, 2, 3, 3, 2]),
    (7, &[3, 3, 3, 3, 3, 3, 3, 3]),
    (8, &[4, 4, 3, 3, 3, 3, 3, 3, 3]),
    (9, &[4, 4, 3, 3, 3, 4, 4, 3, 3, 3]),
    (16, &[5, 5, 4, 4, 4, 4, 4, 4, 4, 4, 4, 4, 4, 4, 4, 4, 4]),
    (17, &[5, 5, 4, 4, 4, 4, 4, 4, 4, 5, 5, 4, 4, 4, 4, 4, 4, 4]),
];

pub fn all() -> Vec<Case> {
    let mut cases = Vec::new();
    for (place, (count, halvings)) in HALVINGS.into_iter().enumerate() {
        let machine = Machine::ALL[place % 3];
        let sorted = of_functions(machine, SORTED, count);
        let questions = halvings.iter().enumerate().flat_map(|(begun, &compared)| around(&sorted, begun, compared));
        cases.push(case(format!("ok_find_{count}_sorted"), &sorted, ACCEPTED).asked(questions.collect()));
        // Unsorted, all are compared wherever the PC is.
        let unsorted = of_functions(machine, 0, count);
        let questions = (0..=count).step_by(3).flat_map(|begun| around(&unsorted, begun, count as u64));
        cases.push(case(format!("ok_find_{count}_unsorted"), &unsorted, ACCEPTED).asked(questions.collect()));
    }
    cases
}

// Functions of 16 bytes with 16 bytes between them.
fn of_functions(machine: Machine, flags: u8, count: usize) -> Section {
    let mut section = Section::new(machine);
    section.flags = flags;
    section.functions = (0..count).map(|index| function_at(index as i32, start_of(index), 16, &[0])).collect();
    section
}

fn start_of(index: usize) -> i64 {
    32 * index as i64 - 100
}

// From the start of the last function that has begun to just before the next: its first and last place, and those of
// the gap behind it. Where none has begun, the place before the first function.
fn around(section: &Section, begun: usize, compared: u64) -> Vec<Question> {
    let at =
        |d: i64, expected| Question { address: ADDRESS, pc: ADDRESS.wrapping_add_signed(d), expected, asked: None };
    let Some(index) = begun.checked_sub(1) else {
        return vec![at(start_of(0) - 1, no_function(compared))];
    };
    let start = start_of(index);
    let row = found(index as u64, 0, described(section)[index].rows[0], compared);
    vec![
        at(start, row),
        at(start + 15, row),
        at(start + 16, no_function(compared)),
        at(start + 31, no_function(compared)),
    ]
}

#[cfg(test)]
mod tests {
    use super::*;
    use crate::obvious::halvings_of;

    #[test]
    fn the_table_is_that_of_the_halving_rule() {
        for (entries, counts) in HALVINGS {
            let by_rule: Vec<u64> = (0..=entries).map(|begun| halvings_of(entries as u64, begun as u64)).collect();
            assert_eq!(counts, by_rule, "{entries} functions");
        }
    }
}
