//! What is answered before anything is compared: 1 to 8 by the header, and 45 without the sorted flag.

use super::{all_asked, machine_of, Edit, DAMAGES};
use crate::cases::questions::{said, section_refused, Question, Said};
use crate::cases::{case, refused, sound, Case, ACCEPTED, S};
use crate::maker::{Machine, Section, Start};
use crate::reader::AskedOutcome;
use crate::ADDRESS;

pub fn all() -> Vec<Case> {
    let mut cases = unsorted();
    cases.extend(headers());
    cases
}

// 45 with every set of flags without 0x1, whatever a lookup says: a row, 21, 22, 23, or 9 to 15.
fn unsorted() -> Vec<Case> {
    let places = [
        (0xfff, Said::NoFunction),
        (0x1000, Said::Row(0, 0)),
        (0x11ff, Said::Row(1, 3)),
        (0x1300, Said::NoRow(3)),
        (0x1400, Said::NoFunction),
    ];
    let mut cases = Vec::new();
    for (turn, flags) in [0, 2, 4, 6].into_iter().enumerate() {
        let mut section = sound(machine_of(turn));
        section.flags = flags;
        let questions = all_asked(said(&section, ADDRESS, &places), AskedOutcome::Unsorted);
        cases.push(case(format!("ok_asked_unsorted_flags_{flags}"), &section, ACCEPTED).asked(questions));
    }
    let mut overlapping = sound(Machine::Amd64);
    overlapping.flags = 0;
    overlapping.functions[2].start = Start::Effective(0x11f0);
    let places = [(0x11ef, Said::Row(1, 3)), (0x11f0, Said::Disputed(1, 2)), (0x12f0, Said::NoFunction)];
    let questions = all_asked(said(&overlapping, ADDRESS, &places), AskedOutcome::Unsorted);
    cases.push(case("ok_asked_unsorted_overlap", &overlapping, ACCEPTED).asked(questions));
    for (turn, (number, name, damage)) in DAMAGES.into_iter().enumerate() {
        let (function, mut section) = (turn % 4, sound(machine_of(turn)));
        section.flags = 0;
        damage(&mut section, function);
        cases.push(refused_at(format!("{number}_asked_unsorted_{name}"), &section, number, function as u64));
    }
    let mut miscounted = sound(Machine::Aarch64);
    (miscounted.flags, miscounted.claims.rows) = (0, Some(17));
    cases.push(refused_at("15_asked_unsorted".to_string(), &miscounted, 15, 0));
    cases
}

// An unsorted section that a lookup refuses so, asked in each of its functions.
fn refused_at(name: String, section: &Section, number: u64, index: u64) -> Case {
    let ask = |function: u64| Question {
        address: ADDRESS,
        pc: ADDRESS + 0x1080 + 0x100 * function,
        expected: section_refused(number, index),
        asked: None,
    };
    let questions = all_asked((0..4).map(ask).collect(), AskedOutcome::Unsorted);
    case(name, section, refused(number, index)).asked(questions)
}

/// Of each rule of the header one way to break it.
const HEADERS: [(u64, Edit); 6] = [
    (3, |s| s.magic = [0xe2, 0xe2]),
    (4, |s| s.version = 1),
    (5, |s| s.flags |= 0x8),
    (6, |s| s.abi = 0),
    (7, |s| s.fixed_ra = 8),
    (8, |s| s.claims.table_offset = Some(20)),
];

// 1 to 8 come before everything else: the flag, the order of the functions and what they break.
fn headers() -> Vec<Case> {
    let mut cases = Vec::new();
    for (number, damage) in HEADERS {
        for (turn, name) in ["", "_unsorted", "_and_9"].into_iter().enumerate() {
            let mut section = sound(machine_of(turn + number as usize));
            match name {
                "" => (),
                "_unsorted" => section.flags = 0,
                _ => section.functions[1].high_bits = 3,
            }
            damage(&mut section);
            cases.push(header_refused(format!("{number}_asked{name}"), section.bytes(), number));
        }
    }
    let mut unsorted = S;
    unsorted[3] = 0;
    for (name, section) in [("", S), ("_unsorted", unsorted)] {
        cases.push(header_refused(format!("1_asked{name}"), section[..27].to_vec(), 1));
        cases.push(header_refused(format!("8_asked_short{name}"), section[..77].to_vec(), 8));
    }
    cases
}

fn header_refused(name: String, section: Vec<u8>, number: u64) -> Case {
    let expected = section_refused(number, 0);
    let ask = |(address, pc)| Question { address, pc, expected, asked: None };
    let questions = [(ADDRESS, ADDRESS + 0x1003), (ADDRESS, ADDRESS + 0x1180), (u64::MAX, 0)].map(ask).to_vec();
    Case::new(name, section, refused(number, 0)).asked(all_asked(questions, AskedOutcome::Unsound(number)))
}
