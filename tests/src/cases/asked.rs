//! One address asked of sections that are not checked: damage in the function landed on, in others and in none, and
//! where the function landed on does not cover. `shapes` has functions without rows, in blocks and at the ends, `order`
//! starts in another order, `early` what is answered before anything is compared, and `twins` bytes that nobody reads.
//!
//! What a lookup answers and what asking answers are both stated, since they differ wherever a section is refused.

mod early;
mod order;
mod shapes;
mod twins;

use super::document::{ENTERED, FRAMED};
use super::questions::{pc_at, section_refused, Question};
use super::{case, refused, sound, Case, ACCEPTED, S};
use crate::maker::{FirstRow, Machine, Section, Start};
use crate::obvious::described;
use crate::reader::{self, Answer, Asked, AskedOutcome, Outcome, Verdict};
use crate::ADDRESS;
use Told::{Damaged, NoFunction, NoRow, Row};

/// What the author reads in the request of a place in a sorted section whose header is sound.
#[derive(Clone, Copy, Debug, PartialEq, Eq)]
enum Told {
    /// A function's index and a row's number in it.
    Row(u64, u64),
    NoFunction,
    NoRow(u64),
    Damaged(u64),
}

/// A place d, what is read of it, and how many entries are compared on the way.
type Place = (i128, Told, u64);

pub fn all() -> Vec<Case> {
    let mut cases = damaged_functions();
    cases.extend(not_covering());
    cases.extend(damaged_and_empty());
    cases.extend(order_and_sum());
    cases.push(k8());
    cases.extend(shapes::all());
    cases.extend(order::all());
    cases.extend(early::all());
    cases.extend(twins::all());
    cases
}

/// Questions about places of a section with this verdict, loaded at an address. The functions are those of the section
/// before it was damaged, since the rows that are found stand in functions that were not.
fn told(functions: &[reader::Function], verdict: Verdict, address: u64, places: &[Place]) -> Vec<Question> {
    let ask = |&(d, told, compared): &Place| {
        let asked = Asked { outcome: outcome(functions, told), compared };
        let expected = match verdict {
            Verdict::Refused { number, index } => section_refused(number, index),
            Verdict::Accepted => Answer { outcome: of_lookup(asked.outcome), compared },
        };
        Question { address, pc: pc_at(address, d).expect("a PC"), expected, asked: Some(asked) }
    };
    places.iter().map(ask).collect()
}

fn outcome(functions: &[reader::Function], told: Told) -> AskedOutcome {
    match told {
        Row(function, number) => {
            let row = functions[function as usize].rows[number as usize];
            AskedOutcome::Found { function, number, row }
        }
        NoFunction => AskedOutcome::NoFunction,
        NoRow(function) => AskedOutcome::NoRow { function },
        Damaged(function) => AskedOutcome::Damaged { function },
    }
}

// "On an accepted sorted section its row, refusal and count equal the full answer."
fn of_lookup(outcome: AskedOutcome) -> Outcome {
    match outcome {
        AskedOutcome::Found { function, number, row } => Outcome::Found { function, number, row },
        AskedOutcome::NoFunction => Outcome::NoFunction,
        AskedOutcome::NoRow { function } => Outcome::NoRow { function },
        other => panic!("{other:?} is no answer of an accepted sorted section"),
    }
}

/// The same questions with one answer to all where they are asked without a check.
fn all_asked(questions: Vec<Question>, outcome: AskedOutcome) -> Vec<Question> {
    let asked = Some(Asked { outcome, compared: 0 });
    questions.into_iter().map(|question| Question { asked, ..question }).collect()
}

type Edit = fn(&mut Section);
type Damage = fn(&mut Section, usize);

/// One function of `sound` damaged, and the number that it earns; 11 in each of its forms.
const DAMAGES: [(u64, &str, Damage); 13] = [
    (9, "info_bit_6", |s, f| s.functions[f].high_bits = 1),
    (9, "info_bit_7", |s, f| s.functions[f].high_bits = 2),
    (9, "row_type_3", |s, f| s.functions[f].row_type = 3),
    (10, "repeat_0", |s, f| s.functions[f].repeated = true),
    (11, "first_row_outside", |s, f| s.functions[f].first_row = FirstRow::PastEnd(1)),
    (11, "row_outside", |s, f| s.end_inside_row(f, 3, 0)),
    (11, "row_info_outside", |s, f| s.end_inside_row(f, 3, s.functions[f].start_width())),
    (11, "row_offset_outside", |s, f| s.end_inside_row(f, 3, last_row_length(s, f) - 1)),
    (12, "offset_size_3", |s, f| s.functions[f].rows[1].size_code = 3),
    (12, "no_offsets", |s, f| s.functions[f].rows[2].count = 0),
    (12, "an_offset_too_many", |s, f| s.functions[f].rows[3].count = if s.abi == 3 { 3 } else { 4 }),
    (13, "start_again", |s, f| s.functions[f].rows[3].start = s.functions[f].rows[2].start),
    (13, "start_falls", |s, f| s.functions[f].rows[1].start = s.functions[f].rows[0].start.saturating_sub(1)),
];

fn last_row_length(section: &Section, function: usize) -> usize {
    let function = &section.functions[function];
    function.rows[3].length(function.start_width())
}

/// Both ends of each of the four functions of `sound`, and both sides of them all. Of four entries 2 is compared first,
/// then 3 or 1, and 0 only below the start of 1. A row starts 4 behind the one before it, the first at the index.
const PLACES: [Place; 10] = [
    (0xfff, NoFunction, 3),
    (0x1000, Row(0, 0), 3),
    (0x10ff, Row(0, 3), 3),
    (0x1100, NoRow(1), 2),
    (0x11ff, Row(1, 3), 2),
    (0x1200, NoRow(2), 2),
    (0x12ff, Row(2, 3), 2),
    (0x1300, NoRow(3), 2),
    (0x13ff, Row(3, 3), 2),
    (0x1400, NoFunction, 2),
];

// The same where one of them is damaged.
fn places_with(damaged: usize) -> [Place; 10] {
    let start = 0x1000 + 0x100 * damaged as i128;
    PLACES.map(|(d, told, compared)| {
        let inside = (start..start + 0x100).contains(&d);
        (d, if inside { Damaged(damaged as u64) } else { told }, compared)
    })
}

fn machine_of(turn: usize) -> Machine {
    Machine::ALL[turn % 3]
}

// Every damage in every function, which is landed on, compared on the way to another, or not looked at.
fn damaged_functions() -> Vec<Case> {
    let mut cases = Vec::new();
    for (turn, (number, name, damage)) in DAMAGES.into_iter().enumerate() {
        for function in 0..4 {
            let mut section = sound(machine_of(turn + function));
            let (functions, verdict) = (described(&section), refused(number, function as u64));
            damage(&mut section, function);
            let questions = told(&functions, verdict, ADDRESS, &places_with(function));
            cases.push(case(format!("{number}_asked_{name}_e{function}"), &section, verdict).asked(questions));
        }
    }
    cases
}

// Functions with gaps behind them: damage is told up to a function's last byte, and 21 behind it.
fn not_covering() -> Vec<Case> {
    let mut cases = Vec::new();
    for (turn, (number, name, damage)) in DAMAGES.into_iter().enumerate() {
        let damaged = turn % 4;
        let mut section = sound(machine_of(turn));
        section.functions.iter_mut().for_each(|function| function.size = 0x80);
        let (functions, verdict) = (described(&section), refused(number, damaged as u64));
        damage(&mut section, damaged);
        let (start, compared) = (0x1000 + 0x100 * damaged as i128, [3, 2, 2, 2][damaged]);
        let places = [
            (start, Damaged(damaged as u64), compared),
            (start + 0x7f, Damaged(damaged as u64), compared),
            (start + 0x80, NoFunction, compared),
            (start + 0xff, NoFunction, compared),
        ];
        let questions = told(&functions, verdict, ADDRESS, &places);
        cases.push(case(format!("{number}_asked_{name}_gap"), &section, verdict).asked(questions));
    }
    cases
}

// A damaged function of size 0 covers nothing, so that its damage is never told.
fn damaged_and_empty() -> Vec<Case> {
    let mut cases = Vec::new();
    for (turn, (number, name, damage)) in DAMAGES.into_iter().enumerate() {
        let mut section = sound(machine_of(turn + 1));
        section.functions[2].size = 0;
        let (functions, verdict) = (described(&section), refused(number, 2));
        damage(&mut section, 2);
        let places = [(0x11ff, Row(1, 3), 2), (0x1200, NoFunction, 2), (0x12ff, NoFunction, 2), (0x13ff, Row(3, 3), 2)];
        let questions = told(&functions, verdict, ADDRESS, &places);
        cases.push(case(format!("{number}_asked_{name}_size_0"), &section, verdict).asked(questions));
    }
    cases
}

// No function breaks 9 to 13, but the section is refused: 14 and 15 are not asked for. The third function begins 16
// bytes before the second ends, so that two cover these.
fn order_and_sum() -> Vec<Case> {
    let mut cases = Vec::new();
    for machine in Machine::ALL {
        let whole = sound(machine);
        let questions = told(&described(&whole), ACCEPTED, ADDRESS, &PLACES);
        cases.push(case(format!("ok_asked_{}", machine.tag()), &whole, ACCEPTED).asked(questions));

        let mut overlapping = sound(machine);
        overlapping.functions[2].start = Start::Effective(0x11f0);
        let places = [
            (0x11ef, Row(1, 3), 2),
            (0x11f0, NoRow(2), 2),
            (0x11f2, Row(2, 0), 2),
            (0x11fb, Row(2, 2), 2),
            (0x11ff, Row(2, 3), 2),
            (0x12ef, Row(2, 3), 2),
            (0x12f0, NoFunction, 2),
            (0x1303, Row(3, 0), 2),
        ];
        let questions = told(&described(&overlapping), refused(14, 2), ADDRESS, &places);
        cases.push(case(format!("14_asked_{}", machine.tag()), &overlapping, refused(14, 2)).asked(questions));

        let mut miscounted = sound(machine);
        miscounted.claims.rows = Some(15);
        let questions = told(&described(&miscounted), refused(15, 0), ADDRESS, &PLACES);
        cases.push(case(format!("15_asked_{}", machine.tag()), &miscounted, refused(15, 0)).asked(questions));
    }
    cases
}

// K8: "S with second start 0x101f", where the second of two entries is compared first. K1 and K9 are among the older
// cases: what is asked there follows from what a lookup answers.
fn k8() -> Case {
    let mut section = S;
    section[48..52].copy_from_slice(&[0x1f, 0x10, 0, 0]);
    let found = |function, number, row| AskedOutcome::Found { function, number, row };
    let (first, framed, second) = (found(0, 0, ENTERED), found(0, 1, FRAMED), found(1, 0, ENTERED));
    let answers = [
        (0x40_0fff, AskedOutcome::NoFunction, 2),
        (0x40_1000, first, 2),
        (0x40_1004, framed, 2),
        (0x40_101e, framed, 2),
        (0x40_101f, second, 1),
        (0x40_102e, second, 1),
        (0x40_102f, AskedOutcome::NoFunction, 1),
    ];
    let ask = |(pc, outcome, compared)| Question {
        address: 0x40_0000,
        pc,
        expected: section_refused(14, 1),
        asked: Some(Asked { outcome, compared }),
    };
    Case::new("14_asked_K8", section.to_vec(), refused(14, 1)).asked(answers.map(ask).to_vec())
}
