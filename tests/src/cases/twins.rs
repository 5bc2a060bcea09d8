//! Lookups in sections that list the same functions: sorted with the flag, in the same order without it, reversed,
//! shuffled, and written in another way. Answers agree but for function indexes and counts.

use super::{asked_at_edges, function_at, Case};
use crate::maker::{Function, Machine, Section, RELATIVE, SORTED};

type Rewriting = fn(&mut Section);

const FORMS: [(&str, Rewriting); 5] = [
    ("flagged", |s| s.flags |= SORTED),
    ("unflagged", |_| ()),
    ("reversed", |s| s.functions.reverse()),
    ("shuffled", |s| {
        // 3 and 7 have no common divisor, so that each comes once.
        let sorted = s.functions.clone();
        s.functions = (0..sorted.len()).map(|place| sorted[(3 * place + 4) % sorted.len()].clone()).collect();
    }),
    ("rewritten", rewritten),
];

pub fn all() -> Vec<Case> {
    let mut cases = Vec::new();
    for machine in [Machine::Amd64, Machine::Aarch64Big] {
        for (name, rewrite) in FORMS {
            let mut section = Section::new(machine);
            section.functions = functions(machine);
            rewrite(&mut section);
            cases.push(asked_at_edges(format!("ok_find_twin_{name}_{}", machine.tag()), &section));
        }
    }
    cases
}

// Seven functions in order: adjoining, apart, repeated, without rows, of size 0, with a late first row.
fn functions(machine: Machine) -> Vec<Function> {
    let mut functions = vec![
        function_at(1, -0x300, 0x40, &[0, 4, 0x38]),
        function_at(2, -0x2c0, 0x20, &[0, 1]),
        function_at(3, -0x100, 0x2a, &[0, 6, 11]),
        function_at(4, -0x80, 0x10, &[]),
        function_at(5, 0, 0, &[0]),
        function_at(6, 0, 0x200, &[0, 0x100]),
        function_at(7, 0x7000_0000, 0x100, &[8, 0x20]),
    ];
    (functions[2].repeated, functions[2].repeat) = (true, 12);
    for row in functions.iter_mut().flat_map(|function| &mut function.rows) {
        // A signed bit, which one machine heeds, and three offsets, which it allows.
        row.signed = row.start == 4 || row.start == 0x100;
        if machine.most_offsets() == 3 && row.start == 1 {
            row.offsets = vec![48, -24, -32];
            row.count = 3;
        }
    }
    functions
}

// Wider fields, other key bits and padding, rows elsewhere in the row area, starts that count from their own fields.
fn rewritten(section: &mut Section) {
    section.flags = SORTED | RELATIVE;
    section.auxiliary = vec![0; 3];
    section.tail = vec![0xff; 5];
    section.placed_last = Some(1);
    for function in &mut section.functions {
        (function.row_type, function.padding, function.key_b) = (2, 0x5aa5, true);
        function.gap = vec![0xff; 2];
        if !function.repeated {
            function.repeat = 4;
        }
        function.rows.iter_mut().for_each(|row| row.size_code = 2);
    }
}

#[cfg(test)]
mod tests {
    use super::*;
    use crate::reader::{lookup, Answer, Outcome, Row};

    // What must agree between sections that list the same functions: the row or the number.
    fn common(answer: &Answer) -> Result<(u64, Row), u64> {
        match answer.outcome {
            Outcome::Found { number, row, .. } => Ok((number, row)),
            _ => Err(answer.refusal()),
        }
    }

    #[test]
    fn twins_answer_alike() {
        for of_one_machine in all().chunks(FORMS.len()) {
            let [flagged, others @ ..] = of_one_machine else { unreachable!("a chunk is not empty") };
            for asked in &flagged.questions {
                let answer = lookup(&flagged.section, asked.address, asked.pc);
                for other in others {
                    let twin = lookup(&other.section, asked.address, asked.pc);
                    assert_eq!(common(&twin), common(&answer), "{} at {:x}", other.name, asked.pc);
                    let compared = if other.name.contains("rewritten") { answer.compared } else { 7 };
                    assert_eq!(twin.compared, compared, "{} at {:x}", other.name, asked.pc);
                }
            }
        }
    }
}
