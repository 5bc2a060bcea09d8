//! The times of each call: the library's, the reader's and libsframe's, turn about.
//!
//! What is timed is first seen to come to the same on all sides.

use crate::sections::Timed;
use crate::table::Line;
use std::hint::black_box;
use suntimpani_tests::library::{self, LIBRARY};
use suntimpani_tests::libsframe::{Decoded, Libsframe};
use suntimpani_tests::measured::{by_library, by_reader, listed_by_library, listed_by_reader, Measured};
use suntimpani_tests::reader::{self, Block, Checked, Outcome, Verdict};
use suntimpani_tests::timing::{turn_about, Times, Way};
use suntimpani_tests::walk::{lent, Walk};
use suntimpani_tests::{cases, ADDRESS};

const ROUNDS: usize = 101;
const ROUNDS_OF_FINDS: usize = 31;

/// How many functions are asked for by their indexes.
const ENTRIES: u64 = 1_000;

/// Finds and listings by the library are those of the reader where every kind of answer comes, refused sections too.
pub fn assert_alike_on_stored_cases() {
    for case in cases::all() {
        assert_eq!(listed_by_library(&case.section), listed_by_reader(&case.section), "{}", case.name);
        for question in &case.questions {
            let (section, address, pc) = (&case.section, question.address, [question.pc]);
            assert_eq!(by_library(section, address, &pc), by_reader(section, address, &pc), "{}, {pc:x?}", case.name);
        }
    }
}

pub fn of_check(timed: &Timed, libsframe: Option<&Libsframe>) -> Vec<Line> {
    if !timed.checked {
        return Vec::new();
    }
    let section = &timed.bytes[..];
    assert_eq!(LIBRARY.check(section), Verdict::Accepted, "{}", timed.name);
    assert_eq!(reader::check(section), Verdict::Accepted, "{}", timed.name);
    let mut library = || discard(LIBRARY.check(black_box(section)));
    let mut reader = || discard(reader::check(black_box(section)));
    let times = match libsframe {
        None => turn_about(ROUNDS, &mut [&mut library, &mut reader]),
        Some(libsframe) => {
            assert!(libsframe.decode(section).is_some(), "libsframe refuses {}", timed.name);
            let mut other = || drop(black_box(libsframe.decode(black_box(section))));
            turn_about(ROUNDS, &mut [&mut library, &mut reader, &mut other])
        }
    };
    vec![line("check", timed, times)]
}

/// All lines of a section behind one check; the time of a check alone is taken off round by round.
pub fn of_listing(timed: &Timed, _: Option<&Libsframe>) -> Vec<Line> {
    if !timed.listed {
        return Vec::new();
    }
    let section = &timed.bytes[..];
    assert_eq!(listed_by_library(section), listed_by_reader(section), "{}", timed.name);
    let mut library = || discard(listed_by_library(black_box(section)));
    let mut library_check = || discard(LIBRARY.check(black_box(section)));
    let mut reader = || discard(listed_by_reader(black_box(section)));
    let mut reader_check = || discard(reader::check(black_box(section)));
    let ways = &mut [&mut library as Way, &mut library_check, &mut reader, &mut reader_check];
    let times = turn_about(ROUNDS, ways);
    vec![line("list", timed, vec![times[0].above(&times[1]), times[2].above(&times[3])])]
}

/// A function by its index, of indexes all over the section.
pub fn of_entry(timed: &Timed, _: Option<&Libsframe>) -> Vec<Line> {
    if !timed.checked {
        return Vec::new();
    }
    let section = &timed.bytes[..];
    let count = reader::functions(section).len() as u64;
    let indexes: Vec<u64> = (0..ENTRIES).map(|place| place * count / ENTRIES).collect();
    for &index in &indexes {
        let told = reader::function_at(section, index);
        assert!(told.known, "{}, function {index}", timed.name);
        assert_eq!(LIBRARY.function_at(section, index), library::Function::of(&told), "{}", timed.name);
    }
    let mut library = || indexes.iter().for_each(|index| discard(LIBRARY.function_at(black_box(section), *index)));
    let mut reader = || indexes.iter().for_each(|index| discard(reader::function_at(black_box(section), *index)));
    let times = turn_about(ROUNDS, &mut [&mut library, &mut reader]);
    vec![line("entry", timed, times.iter().map(|times| times.divided_by(indexes.len())).collect())]
}

/// Many lookups behind one check; the time of the check alone is taken off round by round.
pub fn of_find(timed: &Timed, libsframe: Option<&Libsframe>) -> Vec<Line> {
    if timed.pcs.is_empty() {
        return Vec::new();
    }
    let (section, pcs) = (&timed.bytes[..], &timed.pcs[..]);
    assert_eq!(by_library(section, ADDRESS, pcs), by_reader(section, ADDRESS, pcs), "{}", timed.name);
    let none: &[u64] = &[];
    let finds = |find: fn(&[u8], u64, &[u64]) -> Measured, pcs| {
        move || discard(find(black_box(section), ADDRESS, black_box(pcs)))
    };
    let (mut library, mut library_none) = (finds(by_library, pcs), finds(by_library, none));
    let (mut reader, mut reader_none) = (finds(by_reader, pcs), finds(by_reader, none));
    let decoded = libsframe.and_then(|libsframe| libsframe.decode(section)).filter(|_| is_sorted(section));
    let mut times = match decoded {
        None => turn_about(ROUNDS_OF_FINDS, &mut [&mut library, &mut library_none, &mut reader, &mut reader_none]),
        Some(decoded) => {
            assert_alike_by_libsframe(&timed.name, section, pcs, &decoded);
            let mut other = || pcs.iter().for_each(|pc| discard(decoded.find(place_of(black_box(*pc)))));
            let ways = &mut [&mut library, &mut library_none, &mut reader, &mut reader_none, &mut other as Way];
            turn_about(ROUNDS_OF_FINDS, ways)
        }
    };
    let others = times.split_off(4).into_iter();
    let found = [times[0].above(&times[1]), times[2].above(&times[3])].into_iter().chain(others);
    vec![line("find", timed, found.map(|times| times.divided_by(pcs.len())).collect())]
}

pub fn is_sorted(section: &[u8]) -> bool {
    section[3] & suntimpani_tests::maker::SORTED != 0
}

// The start and the CFA offset of the row that the reader finds, or none, for every PC. In functions of repeated blocks
// libsframe 2.44 finds the first byte of each block alone; the time is taken of these PCs too.
pub fn assert_alike_by_libsframe(name: &str, section: &[u8], pcs: &[u64], decoded: &Decoded) {
    let Ok(checked) = Checked::open(section) else { panic!("{name} is accepted") };
    let functions = reader::functions(section);
    for pc in pcs {
        let (row, plain) = match checked.find(ADDRESS, *pc).outcome {
            Outcome::Found { function, row, .. } => (Some(row), functions[function as usize].block == Block::Plain),
            _ => (None, true),
        };
        let expected = row.map(|row| (row.start, row.cfa_offset as i32));
        let found = decoded.find(place_of(*pc));
        assert!(found == expected || !plain, "{name}, PC {pc:x}: libsframe finds {found:?}");
    }
}

// PC minus the section's address, as libsframe takes it.
pub fn place_of(pc: u64) -> i32 {
    pc.wrapping_sub(ADDRESS) as i32
}

pub fn of_caller(timed: &Timed, _: Option<&Libsframe>) -> Vec<Line> {
    let (Some(walk), true) = (&timed.walk, timed.checked) else { return Vec::new() };
    let section = &timed.bytes[..];
    assert_alike_by_walk(timed, walk);
    let mut library = || discard(LIBRARY.step(black_box(section), &walk.stack, walk.process, walk.registers));
    let mut reader = || discard(reader::step(black_box(section), &walk.stack, walk.process, walk.registers));
    vec![line("caller", timed, turn_about(ROUNDS, &mut [&mut library, &mut reader]))]
}

/// A whole trace, and a frame of it with the check taken off.
pub fn of_trace(timed: &Timed, _: Option<&Libsframe>) -> Vec<Line> {
    let Some(walk) = &timed.walk else { return Vec::new() };
    let section = &timed.bytes[..];
    let count = assert_alike_by_walk(timed, walk);
    let (mut of_library, mut of_reader) = (lent(walk.words), lent(walk.words));
    let mut library = || discard(library_trace(black_box(section), walk, &mut of_library));
    let mut reader = || discard(reader_trace(black_box(section), walk, &mut of_reader));
    let mut library_check = || discard(LIBRARY.check(black_box(section)));
    let mut reader_check = || discard(reader::check(black_box(section)));
    let ways: &mut [Way] = &mut [&mut library, &mut reader, &mut library_check, &mut reader_check];
    let mut times = turn_about(ROUNDS, ways);
    let checks = times.split_off(2);
    let frames: Vec<Times> = times.iter().zip(&checks).map(|(whole, check)| whole.above(check)).collect();
    // Where a trace is little more than its check, a frame's share is lost in the noise.
    let can_be_told = frames.iter().zip(&times).all(|(frames, whole)| frames.median() > whole.median() / 2.0);
    let frame = frames.iter().map(|frames| frames.divided_by(count)).collect();
    let mut lines = vec![line("trace", timed, times)];
    lines.extend(can_be_told.then(|| line("frame", timed, frame)));
    lines
}

// Both sides make the same walk, word for word, to the outermost frame, for which the buffer has just room: how many
// frames that are.
fn assert_alike_by_walk(timed: &Timed, walk: &Walk) -> usize {
    let (section, name) = (&timed.bytes[..], &timed.name);
    let walked = walk.by_reader(section);
    let frames = walk.words / 3;
    assert_eq!((walked.traced.frames, walked.traced.ending.number()), (frames as u64, 30), "{name}");
    let step = LIBRARY.step(section, &walk.stack, walk.process, walk.registers);
    assert_eq!(step, library::Step::of(&walked.step), "{name}");
    let mut words = lent(walk.words);
    let traced = library_trace(section, walk, &mut words);
    assert_eq!((traced, words), (library::Traced::of(&walked.traced), walked.words), "{name}");
    frames
}

fn library_trace(section: &[u8], walk: &Walk, buffer: &mut [u64]) -> library::Traced {
    LIBRARY.trace(section, &walk.stack, walk.process, walk.registers, walk.limit, buffer)
}

fn reader_trace(section: &[u8], walk: &Walk, buffer: &mut [u64]) -> reader::Traced {
    reader::trace(section, &walk.stack, walk.process, walk.registers, walk.limit, buffer)
}

// The library's times, the reader's and, where there are any, libsframe's.
pub fn line(call: &'static str, timed: &Timed, times: Vec<Times>) -> Line {
    let mut times = times.into_iter();
    let (library, reader) = (times.next().expect("the library's"), times.next().expect("the reader's"));
    Line::new(call, &timed.name, library, reader, times.next())
}

pub fn discard<T>(value: T) {
    black_box(value);
}
