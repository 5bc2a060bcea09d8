//! Holds the library's calls against the independent reader's answers, and counts each that was compared.
//!
//! Everything lent to the library lies flush against a forbidden page, once at its front and once at its end, so that
//! a read or a write outside it ends the program.
#![forbid(unsafe_code)]

mod counts;

pub use counts::{Call, Counts, NONE};

use crate::cases::Case;
use crate::guarded::Side;
use crate::library::far::{self, FAR};
use crate::library::rooms::Rooms;
use crate::library::{self, Calls, LIBRARY};
use crate::reader::{self, Answer, Asked, FunctionAt, Header, NextRow, RowsAt, Verdict};
use crate::stream::{indexes, places, to_ask, turn, Random, ToAsk, Turn};
use crate::walk::{lent, Walk, Walked};
use std::cell::{Cell, RefCell};
use std::fmt::Debug;
use std::ops::Range;
use std::sync::atomic::{AtomicBool, AtomicU64, Ordering::Relaxed};
use std::thread;

/// The seed of the indexes and places that a case is asked.
const SEED_OF_CASES: u64 = 20_260_104;

/// The most rows of a function that are read.
const MOST_ROWS: usize = 50;

/// The calls that are compared, memory for all that they are lent, and the counts.
pub struct Comparison {
    calls: Calls,
    rooms: Rooms,
    counts: Counts,
}

/// What the reader says of a turn.
struct Expected {
    verdict: Verdict,
    functions: Vec<FunctionAt>,
    /// Of each function where its rows begin, and what is said of them one after the other.
    rows: Vec<(RowsAt, Vec<NextRow>)>,
    /// What is said at each place.
    at_places: Vec<NextRow>,
    answers: Vec<Answer>,
    /// What is said to the same questions without a check of the whole section.
    asked: Vec<Asked>,
    walked: Vec<Walked>,
}

impl Default for Comparison {
    fn default() -> Comparison {
        Comparison { calls: LIBRARY, rooms: Rooms::default(), counts: Counts::default() }
    }
}

impl Comparison {
    /// Of the archive that a program of another machine calls, which is started for this thread.
    pub fn far() -> Comparison {
        Comparison { calls: FAR, rooms: far::start(), counts: Counts::default() }
    }

    /// Makes every call of a turn, on both sides of the memory; the first difference is said.
    pub fn compare(&mut self, turn: &Turn) -> Result<(), String> {
        let expected = self.by_reader(turn);
        self.hold_against(turn, &expected)
    }

    /// The same of a case, where first the reader must answer as the case's author states.
    pub fn compare_case(&mut self, case: &Case) -> Result<(), String> {
        COMPARED.set(case.name.clone());
        let random = &mut Random::new(SEED_OF_CASES);
        let turn = Turn {
            section: case.section.clone(),
            length: case.section.len(),
            questions: case.questions.iter().map(|question| (question.address, question.pc)).collect(),
            walks: case.walks.iter().map(|(walk, _)| walk.clone()).collect(),
            indexes: indexes(random, &case.section),
            places: places(random, &case.section),
        };
        let said = self.by_reader(&turn);
        let answers: Vec<Answer> = case.questions.iter().map(|question| question.expected).collect();
        let asked: Vec<Asked> = case.questions.iter().map(|question| case.asked_of(question)).collect();
        let walked: Vec<Walked> = case.walks.iter().map(|(_, walked)| walked.clone()).collect();
        let of_author = |what| format!("{}: {what}, the reader and the case's author", case.name);
        same(said.verdict, case.expected, || of_author("the verdict"))?;
        same(&said.answers, &answers, || of_author("the lookups"))?;
        same(&said.asked, &asked, || of_author("what is asked"))?;
        same(&said.walked, &walked, || of_author("the walks"))?;
        self.hold_against(&turn, &said).map_err(|difference| format!("{}: {difference}", case.name))
    }

    fn hold_against(&mut self, turn: &Turn, expected: &Expected) -> Result<(), String> {
        for side in Side::BOTH {
            self.functions_at(side, turn, expected)?;
            self.rows_at(side, turn, expected)?;
            self.lookups_at(side, turn, expected)?;
            self.asks_at(side, turn, expected)?;
            self.walks_at(side, turn, expected)?;
        }
        Ok(())
    }

    // The reader reads the memory that the library is lent.
    fn by_reader(&mut self, turn: &Turn) -> Expected {
        let section = self.rooms.section.longer_at(Side::Front, &turn.section, turn.length);
        let checked = reader::Checked::open(section).ok();
        Expected {
            verdict: reader::check(section),
            functions: turn.indexes.iter().map(|&index| reader::function_at(section, index)).collect(),
            rows: turn.indexes.iter().map(|&index| rows_by_reader(section, checked.as_ref(), index)).collect(),
            at_places: turn.places.iter().map(|&place| reader::next_row(section, place)).collect(),
            answers: turn.questions.iter().map(|&(address, pc)| reader::lookup(section, address, pc)).collect(),
            asked: turn.questions.iter().map(|&question| ask(section, question)).collect(),
            walked: turn.walks.iter().map(|walk| walk.by_reader(section)).collect(),
        }
    }

    fn functions_at(&mut self, side: Side, turn: &Turn, expected: &Expected) -> Result<(), String> {
        let section = self.rooms.section.longer_at(side, &turn.section, turn.length);
        for (&index, told) in turn.indexes.iter().zip(&expected.functions) {
            let by_library = self.calls.function_at(section, index);
            same(by_library, library::Function::of(told), || format!("function {index:x}, {side:?}"))?;
            let number = if told.number == 0 && !told.known { NONE } else { told.number };
            self.counts.count(Call::FunctionAt, number);
        }
        Ok(())
    }

    fn rows_at(&mut self, side: Side, turn: &Turn, expected: &Expected) -> Result<(), String> {
        let section = self.rooms.section.longer_at(side, &turn.section, turn.length);
        for (index, (begin, turns)) in turn.indexes.iter().zip(&expected.rows) {
            let mut rest = self.calls.rows_of(section, *index);
            same(rest, library::Rows::of(begin), || format!("the rows of {index:x}, {side:?}"))?;
            self.counts.count(Call::RowsOf, if begin.left == 0 { NONE } else { 0 });
            for (number, next) in turns.iter().enumerate() {
                let by_library = self.calls.next_row(section, rest);
                same(by_library, library::Row::of(next), || format!("row {number} of {index:x}, {side:?}"))?;
                self.counts.count(Call::NextRow, if next.row.is_none() { NONE } else { 0 });
                rest = by_library.rest;
            }
        }
        for (place, next) in turn.places.iter().zip(&expected.at_places) {
            let by_library = self.calls.next_row(section, library::Rows::of(place));
            same(by_library, library::Row::of(next), || format!("the row at {place:x?}, {side:?}"))?;
            self.counts.count(Call::NextRow, if next.row.is_none() { NONE } else { 0 });
        }
        Ok(())
    }

    fn lookups_at(&mut self, side: Side, turn: &Turn, expected: &Expected) -> Result<(), String> {
        let section = self.rooms.section.longer_at(side, &turn.section, turn.length);
        same(self.calls.check(section), expected.verdict, || format!("the verdict, {side:?}"))?;
        self.counts.count(Call::Check, expected.verdict.number());
        for (&(address, pc), answer) in turn.questions.iter().zip(&expected.answers) {
            let by_library = self.calls.lookup(section, address, pc);
            same(by_library, library::Answer::of(answer), || format!("{address:x}, PC {pc:x}, {side:?}"))?;
            self.counts.count(Call::Lookup, answer.refusal());
        }
        Ok(())
    }

    fn asks_at(&mut self, side: Side, turn: &Turn, expected: &Expected) -> Result<(), String> {
        let section = self.rooms.section.longer_at(side, &turn.section, turn.length);
        let full = expected.verdict == Verdict::Accepted && is_sorted(section);
        for (&question, asked) in turn.questions.iter().zip(&expected.asked) {
            compare_asked(&self.calls, section, question, asked, full).map_err(|said| format!("{said}, {side:?}"))?;
            self.counts.count(Call::Ask, asked.refusal());
        }
        Ok(())
    }

    /// Asks a section at its places, and its twin at the first of them.
    pub fn compare_to_ask(&mut self, to_ask: &ToAsk) -> Result<(), String> {
        let ToAsk { section, questions, twin } = to_ask;
        let full = reader::check(section) == Verdict::Accepted && is_sorted(section);
        for &question in questions {
            self.compare_on_both_sides(section, question, &ask(section, question), full)?;
        }
        let first = questions[0];
        let of_twin = self.compare_on_both_sides(twin, first, &ask(section, first), false);
        of_twin.map_err(|said| format!("{said}, as the twin of {section:x?}"))?;
        let lookups = [section, twin].map(|section| reader::lookup(section, first.0, first.1));
        self.counts.twins += u64::from(section != twin);
        self.counts.told_apart += u64::from(lookups[0] != lookups[1]);
        Ok(())
    }

    fn compare_on_both_sides(
        &mut self,
        section: &[u8],
        question: (u64, u64),
        asked: &Asked,
        full: bool,
    ) -> Result<(), String> {
        for side in Side::BOTH {
            let lent = self.rooms.section.bytes_at(side, section);
            let compared = compare_asked(&self.calls, lent, question, asked, full);
            compared.map_err(|said| format!("{said}, {side:?}, section {section:x?}"))?;
            self.counts.count(Call::Ask, asked.refusal());
        }
        Ok(())
    }

    fn walks_at(&mut self, side: Side, turn: &Turn, expected: &Expected) -> Result<(), String> {
        let section = self.rooms.section.longer_at(side, &turn.section, turn.length);
        for (walk, walked) in turn.walks.iter().zip(&expected.walked) {
            let stack = self.rooms.stack.bytes_at(side, &walk.stack);
            let words = self.rooms.words.words_at(side, &lent(walk.words));
            compare_walk(&self.calls, section, stack, words, walk, walked)
                .map_err(|said| format!("{said}, {side:?}"))?;
            self.counts.count(Call::Caller, walked.step.number());
            self.counts.count(Call::Trace, walked.traced.ending.number());
        }
        Ok(())
    }
}

// Where a function's rows begin, and what is said of them: each that is read, and where they end that there are no more,
// twice. In an accepted section the rows are those of the listing.
fn rows_by_reader(section: &[u8], checked: Option<&reader::Checked>, index: u64) -> (RowsAt, Vec<NextRow>) {
    let begin = reader::rows_of(section, index);
    let mut listed = checked.map(|checked| checked.rows_listed(index));
    let mut turns = Vec::new();
    let (mut rest, mut ended) = (begin, 0);
    while turns.len() < MOST_ROWS && ended < 2 {
        let mut next = reader::next_row(section, rest);
        if let Some(listed) = &mut listed {
            next.row = listed.next();
        }
        ended += usize::from(next.row.is_none());
        rest = next.rest;
        turns.push(next);
    }
    (begin, turns)
}

fn ask(section: &[u8], (address, pc): (u64, u64)) -> Asked {
    reader::ask(section, address, pc)
}

fn is_sorted(section: &[u8]) -> bool {
    Header::read(section).is_some_and(|header| header.flags & 1 != 0)
}

// Every field; and where the section is accepted and sorted, every field of the full answer too.
fn compare_asked(
    calls: &Calls,
    section: &[u8],
    (address, pc): (u64, u64),
    asked: &Asked,
    full: bool,
) -> Result<(), String> {
    let by_library = calls.ask(section, address, pc);
    same(by_library, library::Answer::of_asked(asked), || format!("asked at {address:x}, PC {pc:x}"))?;
    if full {
        let lookup = calls.lookup(section, address, pc);
        same(by_library, lookup, || format!("asked at {address:x}, PC {pc:x}, and the full answer"))?;
    }
    Ok(())
}

// Every field of both answers, and every word of the buffer.
fn compare_walk(
    calls: &Calls,
    section: &[u8],
    stack: &[u8],
    words: &mut [u64],
    walk: &Walk,
    expected: &Walked,
) -> Result<(), String> {
    let step = calls.step(section, stack, walk.process, walk.registers);
    same(step, library::Step::of(&expected.step), || format!("the step, {walk:x?}"))?;
    let traced = calls.trace(section, stack, walk.process, walk.registers, walk.limit, words);
    same(traced, library::Traced::of(&expected.traced), || format!("the trace, {walk:x?}"))?;
    same(&words[..], &expected.words[..], || format!("the words, {walk:x?}"))
}

fn same<T: Debug + PartialEq>(library: T, reader: T, what: impl FnOnce() -> String) -> Result<(), String> {
    if library == reader {
        return Ok(());
    }
    Err(format!("{}: {library:x?}, and not {reader:x?}", what()))
}

thread_local! {
    static TURN: Cell<u64> = const { Cell::new(0) };
    static COMPARED: RefCell<String> = RefCell::new("no case".to_string());
}

/// The turn that this thread is at.
pub fn turn_of_this_thread() -> u64 {
    TURN.get()
}

/// The name of the case that this thread is at, or the seed and the turn.
pub fn compared_by_this_thread() -> String {
    COMPARED.with_borrow(String::clone)
}

/// Makes these turns of a seed.
pub fn compare_turns(comparison: &mut Comparison, seed: u64, turns: Range<u64>) -> Result<(), String> {
    for number in turns {
        TURN.set(number);
        COMPARED.set(format!("seed {seed}, turn {number}"));
        let compared = comparison.compare(&turn(seed, number));
        let asked = |()| to_ask(seed, number).iter().try_for_each(|one| comparison.compare_to_ask(one));
        compared.and_then(asked).map_err(|difference| format!("{}: {difference}", compared_by_this_thread()))?;
    }
    Ok(())
}

/// How far a comparison in parts has come.
#[derive(Default)]
pub struct Progress {
    pub parts: AtomicU64,
    pub calls: AtomicU64,
    stopped: AtomicBool,
}

/// Does every part of a comparison, on as many threads as the machine has cores, each with one that it makes, until one
/// of them finds a difference. What is counted is the same whichever thread does a part.
///
/// # Panics
/// Where a part does.
pub fn in_parts(
    parts: u64,
    progress: &Progress,
    make: fn() -> Comparison,
    compare: impl Fn(&mut Comparison, u64) -> Result<(), String> + Sync,
) -> Result<Counts, String> {
    let next = AtomicU64::new(0);
    let work = || {
        let mut comparison = make();
        while let Some(part) = next_part(&next, parts, progress) {
            let before = comparison.counts.calls();
            compare(&mut comparison, part).inspect_err(|_| progress.stopped.store(true, Relaxed))?;
            progress.parts.fetch_add(1, Relaxed);
            progress.calls.fetch_add(comparison.counts.calls() - before, Relaxed);
        }
        Ok(comparison.counts)
    };
    let threads = thread::available_parallelism().map_or(1, usize::from);
    thread::scope(|scope| {
        let workers: Vec<_> = (0..threads).map(|_| scope.spawn(work)).collect();
        let done = workers.into_iter().map(|worker| worker.join().expect("a part ended"));
        done.reduce(|sum, counts| sum.and_then(|sum: Counts| counts.map(|counts| sum.with(&counts))))
            .expect("there is at least one thread")
    })
}

fn next_part(next: &AtomicU64, parts: u64, progress: &Progress) -> Option<u64> {
    let part = next.fetch_add(1, Relaxed);
    (part < parts && !progress.stopped.load(Relaxed)).then_some(part)
}

/// How many calls were compared without a difference, of what, how many twins were asked, and the table of the calls'
/// numbers.
pub fn report(counts: &Counts, of_what: &str) -> String {
    let compared = format!("compared: {} calls of {of_what}, 0 differences", counts.calls());
    let twins = format!("{} sections with other bytes where none is named", counts.twins);
    format!("{compared}\nasked alike: {twins}, {} of them looked up otherwise\n{counts}", counts.told_apart)
}
