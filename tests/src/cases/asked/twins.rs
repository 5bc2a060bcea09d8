//! Sections of equal length that differ only in bytes that the request does not name: entries that are not compared,
//! rows of other functions, rows behind the first fault, and what nobody looks at. Asked alike they answer alike.

use super::{all_asked, told, Edit, Place, Told};
use crate::cases::questions::Question;
use crate::cases::{case, function_at, refused, Case, ACCEPTED};
use crate::maker::{FirstRow, Machine, Section, Start, SORTED};
use crate::obvious::described;
use crate::reader::{AskedOutcome, Verdict};
use crate::ADDRESS;
use Told::{Damaged, NoFunction, Row};

/// A section, where it is asked, and its twins: how each is made of the section, and what a lookup says of it.
struct Family {
    name: &'static str,
    machine: Machine,
    edit: Edit,
    verdict: Verdict,
    places: &'static [Place],
    twins: &'static [(&'static str, Verdict, Edit)],
}

pub fn all() -> Vec<Case> {
    families().into_iter().flatten().collect()
}

// Each family begins with the section that the others are twins of.
fn families() -> Vec<Vec<Case>> {
    let mut families: Vec<Vec<Case>> = FAMILIES.iter().map(family).collect();
    families.extend(by_the_header_alone());
    families
}

fn family(family: &Family) -> Vec<Case> {
    let functions = described(&of_seven(family.machine));
    let asked = |name: &str, verdict, edit: Edit| {
        let mut section = of_seven(family.machine);
        (family.edit)(&mut section);
        edit(&mut section);
        named(family.name, name, &section, verdict).asked(told(&functions, verdict, ADDRESS, family.places))
    };
    let first = asked("whole", family.verdict, |_| ());
    let twins = family.twins.iter().map(|&(name, verdict, edit)| asked(name, verdict, edit));
    [first].into_iter().chain(twins).collect()
}

fn named(family: &str, name: &str, section: &Section, verdict: Verdict) -> Case {
    let begin = match verdict {
        Verdict::Accepted => "ok".to_string(),
        Verdict::Refused { number, .. } => number.to_string(),
    };
    case(format!("{begin}_asked_twin_{family}_{name}"), section, verdict)
}

// Seven functions of 128 bytes, 256 apart, with rows at 0, 4 and 8, bytes between the rows, and an auxiliary header. Of
// seven entries three are compared: 3, then 1 or 5, then one beside it. The header's count of rows is a named byte, so
// that it stays what it is.
fn of_seven(machine: Machine) -> Section {
    let mut section = Section::new(machine);
    section.flags = SORTED;
    section.auxiliary = vec![0; 5];
    section.tail = vec![0; 9];
    section.functions = (0..7).map(|i| function_at(i + 1, 0x1000 + 0x100 * i64::from(i), 0x80, &[0, 4, 8])).collect();
    section.functions.iter_mut().for_each(|function| function.gap = vec![0; 3]);
    section.claims.rows = Some(21);
    section
}

// Entries 0, 1, 2 and 6 are not compared on the way to function 4; of 3 and 5 only the rows are not read.
const BEFORE_OR_BEHIND: &[(&str, Verdict, Edit)] = &[
    ("info", refused(9, 0), |s| s.functions[0].high_bits = 3),
    ("blocks", refused(10, 1), |s| s.functions[1].repeated = true),
    ("first_row", refused(11, 6), |s| s.functions[6].first_row = FirstRow::At(u32::MAX)),
    ("row_count", refused(12, 2), |s| s.functions[2].claimed_rows = Some(u32::MAX)),
    ("row_info", refused(12, 3), |s| s.functions[3].rows[1].count = 0),
    ("row_start", refused(13, 5), |s| s.functions[5].rows[2].start = 4),
    ("start", refused(14, 2), |s| s.functions[2].start = Start::Effective(-0x7000_0000)),
    ("size", refused(14, 1), |s| s.functions[0].size = u32::MAX),
    ("sum", refused(15, 0), |s| s.functions[1].claimed_rows = Some(2)),
    ("offsets", ACCEPTED, |s| s.functions[3].rows[1].offsets = vec![-1, -1]),
    ("auxiliary", ACCEPTED, |s| s.auxiliary = vec![0xff; 5]),
    ("unused", ACCEPTED, |s| unused(s, 0xff)),
    ("padding", ACCEPTED, |s| (s.functions[0].padding, s.functions[6].key_b) = (0xffff, true)),
    ("all", refused(9, 0), |s| {
        unused(s, 0xff);
        for function in [0, 1, 2, 3, 5, 6] {
            s.functions[function].rows.iter_mut().for_each(|row| row.count = 0xf);
        }
        [0, 1, 2, 6].iter().for_each(|&f| s.functions[f].high_bits = 3);
    }),
];

// Bytes of the row area that no row has.
fn unused(section: &mut Section, byte: u8) {
    section.tail.fill(byte);
    section.functions.iter_mut().for_each(|function| function.gap.fill(byte));
}

const IN_4: &[Place] = &[(0x1400, Row(4, 0), 3), (0x1407, Row(4, 1), 3), (0x147f, Row(4, 2), 3)];
const DAMAGED_4: &[Place] = &[(0x1400, Damaged(4), 3), (0x1407, Damaged(4), 3), (0x147f, Damaged(4), 3)];

const FAMILIES: &[Family] = &[
    Family {
        name: "found",
        machine: Machine::Amd64,
        edit: |_| (),
        verdict: ACCEPTED,
        places: IN_4,
        twins: BEFORE_OR_BEHIND,
    },
    // The second row is at fault, and the third is not read; nor are the second one's offsets.
    Family {
        name: "fault",
        machine: Machine::Aarch64Big,
        edit: |s| s.functions[4].rows[1].start = 0,
        verdict: refused(13, 4),
        places: DAMAGED_4,
        twins: &[
            ("behind", refused(13, 4), |s| (s.functions[4].rows[2].start, s.functions[4].rows[2].count) = (0, 0)),
            ("offsets", refused(13, 4), |s| s.functions[4].rows[1].offsets = vec![-1, -1]),
            ("others", refused(9, 0), |s| [0, 1, 2, 6].iter().for_each(|&f| s.functions[f].high_bits = 2)),
        ],
    },
    // The entry itself is at fault, so that no row is read.
    Family {
        name: "entry",
        machine: Machine::Aarch64,
        edit: |s| s.functions[4].high_bits = 1,
        verdict: refused(9, 4),
        places: DAMAGED_4,
        twins: &[("rows", refused(12, 3), |s| {
            s.functions.iter_mut().flat_map(|function| &mut function.rows).for_each(|row| row.count = 0);
            s.functions[..3].iter_mut().for_each(|function| function.claimed_rows = Some(0));
        })],
    },
    // Behind the last byte of function 4: it is landed on, and its rows are not read.
    Family {
        name: "gap",
        machine: Machine::Amd64,
        edit: |_| (),
        verdict: ACCEPTED,
        places: &[(0x1480, NoFunction, 3), (0x14ff, NoFunction, 3)],
        twins: &[
            ("row_info", refused(12, 4), |s| s.functions[4].rows[0].count = 0),
            ("row_start", refused(13, 4), |s| s.functions[4].rows[1].start = 0),
            ("others", refused(9, 0), |s| [0, 1, 2, 6].iter().for_each(|&f| s.functions[f].high_bits = 1)),
        ],
    },
    // Below all functions: 3, 1 and 0 are compared, and no function is landed on.
    Family {
        name: "below",
        machine: Machine::Aarch64Big,
        edit: |_| (),
        verdict: ACCEPTED,
        places: &[(0, NoFunction, 3), (0xfff, NoFunction, 3)],
        twins: &[
            ("rows", refused(12, 0), |s| {
                s.functions.iter_mut().flat_map(|function| &mut function.rows).for_each(|row| row.count = 0);
            }),
            ("others", refused(9, 2), |s| [2, 4, 5, 6].iter().for_each(|&f| s.functions[f].high_bits = 1)),
            ("starts", refused(14, 3), |s| {
                [2, 4, 5, 6].iter().for_each(|&f| s.functions[f].start = Start::Effective(0x7fff_ff00));
            }),
        ],
    },
];

// Where the header is refused, or has no sorted flag, everything behind it may differ.
fn by_the_header_alone() -> Vec<Vec<Case>> {
    let headers: [(&str, Verdict, AskedOutcome, Edit); 2] = [
        ("header", refused(8, 0), AskedOutcome::Unsound(8), |s| s.claims.table_offset = Some(1)),
        ("unsorted", ACCEPTED, AskedOutcome::Unsorted, |s| s.flags = 0),
    ];
    let mut families = Vec::new();
    for (name, verdict, outcome, edit) in headers {
        let mut section = of_seven(Machine::Amd64);
        let functions = described(&section);
        edit(&mut section);
        let asked = |verdict| -> Vec<Question> {
            // Unsorted, all seven entries count as compared.
            let places: Vec<Place> = IN_4.iter().map(|&(d, told, _)| (d, told, 7)).collect();
            all_asked(told(&functions, verdict, ADDRESS, &places), outcome)
        };
        let whole = named(name, "whole", &section, verdict).asked(asked(verdict));
        section.functions.iter_mut().for_each(|function| (function.high_bits, function.size) = (3, 0));
        unused(&mut section, 0xff);
        let of_twin = if verdict == ACCEPTED { refused(9, 0) } else { verdict };
        families.push(vec![whole, named(name, "rest", &section, of_twin).asked(asked(of_twin))]);
    }
    families
}

#[cfg(test)]
mod tests {
    use super::*;
    use crate::reader::{ask, lookup, named_bytes};

    #[test]
    fn twins_differ_in_bytes_that_are_not_named_and_answer_alike() {
        let (mut pairs, mut other_lookups) = (0, 0);
        for family in families() {
            let [whole, twins @ ..] = &family[..] else { unreachable!("a family is not empty") };
            for twin in twins {
                assert_eq!(twin.section.len(), whole.section.len(), "{}", twin.name);
                assert_ne!(twin.section, whole.section, "{}", twin.name);
                for (question, &Question { address, pc, .. }) in whole.questions.iter().zip(&twin.questions) {
                    let named = named_bytes(&whole.section, address, pc);
                    let alike = named.into_iter().all(|bytes| whole.section[bytes.clone()] == twin.section[bytes]);
                    assert!(alike, "{}, PC {pc:x}: a named byte differs", twin.name);
                    assert_eq!(ask(&twin.section, address, pc), whole.asked_of(question), "{}, PC {pc:x}", twin.name);
                    let lookups = [whole, twin].map(|case| lookup(&case.section, address, pc));
                    other_lookups += u32::from(lookups[0] != lookups[1]);
                }
                pairs += 1;
            }
        }
        assert!(pairs > 20 && other_lookups > 40, "{pairs} pairs, {other_lookups} times a lookup differs");
    }
}
