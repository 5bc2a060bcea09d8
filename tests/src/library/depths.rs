//! The most stack that each of the eight calls uses, over sections small and large, sound and damaged.
#![forbid(unsafe_code)]

use super::rooms::Rooms;
use super::{Calls, Rows};
use crate::comparison::Call;
use crate::guarded::{Guarded, Side};
use crate::stream::{indexes, places, turn, Random, Turn};
use crate::walk::{lent, Walk};
use crate::{cases, laid, large, ADDRESS};
use std::hint::black_box;

const SEED: u64 = 20_260_103;
const TURNS: u64 = 5_000;

/// The highest limit of a trace.
const MOST_FRAMES: usize = 256;

/// For each call, how often it was made and the most bytes that it used.
pub type Most = [(usize, usize); Call::ALL.len()];

/// One call, to be made by any calls of the form.
pub type Run<'a> = &'a mut dyn FnMut(&Calls);

/// Of these calls, which are lent what lies in these rooms, by a function that tells how deep a run goes. One trace is
/// through a section of signed rows, under a mask.
pub fn measure(
    calls: &Calls,
    rooms: &mut Rooms,
    (signed, mask): (Vec<u8>, u64),
    mut depth_of: impl FnMut(Run) -> usize,
) -> Most {
    let mut most = Most::default();
    let mut take = |call: Call, run: Run| {
        let (made, bytes) = &mut most[call as usize];
        (*made, *bytes) = (*made + 1, (*bytes).max(depth_of(run)));
    };
    for turn in of_cases(signed, mask).chain((0..TURNS).map(|number| turn(SEED, number))) {
        take_turn(calls, rooms, &turn, &mut take);
    }
    most
}

// The stored cases, the cases at the limit, and traces of as many frames as a limit allows, one through signed rows.
fn of_cases(signed: Vec<u8>, mask: u64) -> impl Iterator<Item = Turn> {
    let at_the_limit = (0..large::AT_THE_LIMIT_COUNT).map(large::at_the_limit);
    let of_case = |case: cases::Case| Turn {
        length: case.section.len(),
        questions: case.questions.iter().map(|question| (question.address, question.pc)).collect(),
        walks: case.walks.into_iter().map(|(walk, _)| walk).collect(),
        indexes: indexes(&mut Random::new(SEED), &case.section),
        places: places(&mut Random::new(SEED), &case.section),
        section: case.section,
    };
    let deep = |section: Vec<u8>, walk| Turn {
        length: section.len(),
        questions: vec![(ADDRESS, ADDRESS)],
        walks: vec![walk],
        indexes: vec![0],
        places: Vec::new(),
        section,
    };
    let gas = cases::corpus_section("gas_exe");
    let walk = laid::through(&gas, MOST_FRAMES, SEED);
    let signed_walk = laid::through_signed(&signed, MOST_FRAMES, SEED, mask);
    let deepest = [deep(gas, walk), deep(signed, signed_walk)];
    cases::all().into_iter().chain(at_the_limit).map(of_case).chain(deepest)
}

// A section that is lent longer than it is has its own length here.
fn take_turn(calls: &Calls, rooms: &mut Rooms, turn: &Turn, take: &mut impl FnMut(Call, Run)) {
    let section = rooms.section.bytes_at(Side::End, &turn.section);
    take(Call::Check, &mut |calls| discard(calls.check(section)));
    for &index in &turn.indexes {
        take(Call::FunctionAt, &mut |calls| discard(calls.function_at(section, index)));
        take(Call::RowsOf, &mut |calls| discard(calls.rows_of(section, index)));
        let rows = calls.rows_of(section, index);
        take(Call::NextRow, &mut |calls| discard(calls.next_row(section, rows)));
    }
    for place in &turn.places {
        take(Call::NextRow, &mut |calls| discard(calls.next_row(section, Rows::of(place))));
    }
    for &(address, pc) in &turn.questions {
        take(Call::Lookup, &mut |calls| discard(calls.lookup(section, address, pc)));
        take(Call::Ask, &mut |calls| discard(calls.ask(section, address, pc)));
    }
    turn.walks.iter().for_each(|walk| take_walk(section, &mut rooms.stack, &mut rooms.words, walk, take));
}

fn take_walk(section: &[u8], stack: &mut Guarded, words: &mut Guarded, walk: &Walk, take: &mut impl FnMut(Call, Run)) {
    let (process, registers, limit) = (walk.process, walk.registers, MOST_FRAMES as u64);
    let stack = stack.bytes_at(Side::End, &walk.stack);
    let buffer = words.words_at(Side::End, &lent(walk.words.max(3 * MOST_FRAMES)));
    take(Call::Caller, &mut |calls| discard(calls.step(section, stack, process, registers)));
    take(Call::Trace, &mut |calls| discard(calls.trace(section, stack, process, registers, limit, buffer)));
}

fn discard<T>(value: T) {
    black_box(value);
}
