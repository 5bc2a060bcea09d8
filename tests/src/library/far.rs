//! Eight calls of the library's form that a program of another machine makes: tests/aarch64/called.c, started by the
//! words of `SUNTIMPANI_FAR`, with the archive of that machine.
//!
//! Each thread has a program and rooms of its own. The rooms are memory that both have, so that only the numbers of a
//! call go to the program and only its answer comes back. A call of which that cannot be had ends this process, and is
//! told: no answer could be given in its place.
#![forbid(unsafe_code)]

use super::rooms::Rooms;
use super::{Answer, Calls, Function, Process, Registers, Row, Rows, Step, Traced, Verdict};
use crate::comparison::{compared_by_this_thread, Call};
use std::cell::RefCell;
use std::env;
use std::fmt;
use std::io::{self, Read, Write};
use std::ops::Range;
use std::process::{exit, Child, ChildStdin, ChildStdout, Command, ExitStatus, Stdio};

/// The variable of the environment that says how the program is started.
pub const STARTED_BY: &str = "SUNTIMPANI_FAR";

pub const FAR: Calls = Calls { check, function_at, rows_of, next_row, lookup, ask, caller, trace };

/// The kinds of requests, by their numbers in called.c.
const ANSWER: u64 = 0;
const DEPTH: u64 = 1;
const READ: u64 = 2;
const WRITE: u64 = 3;

/// In a room's place where nothing is lent, so that the program passes a null pointer.
const NO_ROOM: u64 = u64::MAX;

const ROOMS: usize = 3;
const NUMBERS: usize = 9;
const WORDS_OF_A_REQUEST: usize = 2 + 3 * ROOMS + NUMBERS;

/// The fields of the longest answer; behind them comes the depth.
const FIELDS: usize = 13;
const WORDS_OF_AN_ANSWER: usize = FIELDS + 1;

/// Something lent, or the byte that is touched: a room, the place in it, and a length in the unit of its call.
#[derive(Clone, Copy)]
struct Part {
    room: u64,
    place: u64,
    length: u64,
}

impl Part {
    const NONE: Part = Part { room: NO_ROOM, place: 0, length: 0 };
}

/// What is sent.
#[derive(Clone, Copy)]
struct Request {
    kind: u64,
    call: u64,
    parts: [Part; ROOMS],
    numbers: [u64; NUMBERS],
}

/// What comes back.
struct Said {
    fields: [u64; FIELDS],
    depth: u64,
}

struct Program {
    child: Child,
    /// None once there will be no more.
    requests: Option<ChildStdin>,
    answers: ChildStdout,
    /// Where the rooms lie on this side.
    rooms: [Range<usize>; ROOMS],
    /// Whether depths are asked for, and that of the last call.
    kind: u64,
    depth: u64,
}

thread_local! {
    static PROGRAM: RefCell<Option<Program>> = const { RefCell::new(None) };
}

/// The words that start the program, where there are any.
pub fn starting_words() -> Option<Vec<String>> {
    let words: Vec<String> = env::var(STARTED_BY).ok()?.split_whitespace().map(str::to_string).collect();
    (!words.is_empty()).then_some(words)
}

/// Starts this thread's program, in the place of an earlier one. The calls can be lent what lies in the rooms.
///
/// # Panics
/// Where it cannot be started.
pub fn start() -> Rooms {
    start_with(Stdio::inherit())
}

/// The same of a program that is to be killed, without what an emulator says of that.
///
/// # Panics
/// Where it cannot be started.
pub fn start_silent() -> Rooms {
    start_with(Stdio::null())
}

fn start_with(errors: Stdio) -> Rooms {
    let rooms = Rooms::shared();
    let words = starting_words().unwrap_or_else(|| panic!("{STARTED_BY} does not say how the program is started"));
    let mut command = Command::new(&words[0]);
    command.args(&words[1..]).stdin(Stdio::piped()).stdout(Stdio::piped()).stderr(errors);
    for room in rooms.all() {
        let file = room.file().expect("the room is shared");
        command.args([file.to_string(), room.addresses().len().to_string()]);
    }
    let mut child = command.spawn().unwrap_or_else(|error| panic!("{}: {error}", words[0]));
    let (requests, answers) = (child.stdin.take(), child.stdout.take().expect("its output is a pipe"));
    let rooms_here = rooms.all().map(|room| room.addresses());
    let program = Program { child, requests, answers, rooms: rooms_here, kind: ANSWER, depth: 0 };
    PROGRAM.set(Some(program));
    rooms
}

/// The bytes of stack that the one call of a run takes, beside an empty one of the same form.
pub fn depth_of(run: impl FnOnce(&Calls)) -> usize {
    with_program(|program| program.kind = DEPTH);
    run(&FAR);
    with_program(|program| {
        program.kind = ANSWER;
        program.depth as usize
    })
}

/// The program's reading, or writing, of one byte counted from the front of a room, of 0 section, 1 stack and 2 words;
/// how it ended, where it did.
pub fn touch(room: u64, place: isize, write: bool) -> Result<(), ExitStatus> {
    let byte = Part { room, place: place as u64, length: 1 };
    let kind = if write { WRITE } else { READ };
    let request = Request { kind, call: 0, parts: [byte, Part::NONE, Part::NONE], numbers: [0; NUMBERS] };
    with_program(|program| program.ask(&request).map(|_| ()))
}

fn with_program<T>(take: impl FnOnce(&mut Program) -> T) -> T {
    PROGRAM.with_borrow_mut(|program| take(program.as_mut().expect("this thread has started its program")))
}

impl Program {
    // The answer, or how the program ended before it gave one.
    fn ask(&mut self, request: &Request) -> Result<Said, ExitStatus> {
        let mut bytes = [0; 8 * WORDS_OF_AN_ANSWER];
        let sent = self.requests.as_mut().expect("requests can still be sent").write_all(&request.bytes());
        match sent.and_then(|()| self.answers.read_exact(&mut bytes)) {
            Ok(()) => Ok(Said::of(&bytes)),
            Err(_) => Err(self.end()),
        }
    }

    // It ends where nothing more is asked of it, if it has not ended before.
    fn end(&mut self) -> ExitStatus {
        self.requests = None;
        self.child.wait().expect("the program was started")
    }

    // The room that something lent lies in. Without a length it need not lie in one.
    fn part(&self, lent: &Lent) -> Option<Part> {
        let lies_in = |room: &Range<usize>| room.start <= lent.at && lent.at + lent.bytes <= room.end;
        let length = lent.length as u64;
        match self.rooms.iter().position(lies_in) {
            Some(room) => Some(Part { room: room as u64, place: (lent.at - self.rooms[room].start) as u64, length }),
            None => (lent.length == 0).then_some(Part::NONE),
        }
    }
}

impl Drop for Program {
    fn drop(&mut self) {
        self.end();
    }
}

impl Request {
    fn bytes(&self) -> [u8; 8 * WORDS_OF_A_REQUEST] {
        let parts = self.parts.iter().flat_map(|part| [part.room, part.place, part.length]);
        let words = [self.kind, self.call].into_iter().chain(parts).chain(self.numbers);
        let mut bytes = [0; 8 * WORDS_OF_A_REQUEST];
        bytes.as_chunks_mut().0.iter_mut().zip(words).for_each(|(to, word)| *to = word.to_le_bytes());
        bytes
    }
}

impl Said {
    fn of(bytes: &[u8; 8 * WORDS_OF_AN_ANSWER]) -> Said {
        let words = bytes.as_chunks().0;
        let word = |place: usize| u64::from_le_bytes(words[place]);
        Said { fields: std::array::from_fn(word), depth: word(FIELDS) }
    }
}

/// Something lent, as a call of the library names it.
#[derive(Clone, Copy)]
struct Lent {
    at: usize,
    /// In bytes, or in words of the buffer.
    length: usize,
    bytes: usize,
}

impl fmt::Debug for Lent {
    fn fmt(&self, to: &mut fmt::Formatter) -> fmt::Result {
        write!(to, "{} bytes at {:#x}", self.bytes, self.at)
    }
}

fn bytes(at: *const u8, length: usize) -> Lent {
    Lent { at: at as usize, length, bytes: length }
}

fn words(at: *mut u64, length: usize) -> Lent {
    Lent { at: at as usize, length, bytes: 8 * length }
}

// Hands a call to this thread's program.
fn called(call: Call, lent: &[Lent], numbers: &[u64]) -> [u64; FIELDS] {
    let said = with_program(|program| {
        let mut request =
            Request { kind: program.kind, call: call as u64, parts: [Part::NONE; ROOMS], numbers: [0; NUMBERS] };
        for (part, lent) in request.parts.iter_mut().zip(lent) {
            *part = program.part(lent).ok_or_else(|| format!("{lent:?} lie in no room"))?;
        }
        request.numbers[..numbers.len()].copy_from_slice(numbers);
        let said = program.ask(&request).map_err(|ended| format!("the program ended, {ended}"))?;
        program.depth = said.depth;
        Ok::<_, String>(said.fields)
    });
    said.unwrap_or_else(|failure| {
        let name = call.name();
        tell(&format!("{}: {name} of {lent:x?}, numbers {numbers:x?}: {failure}", compared_by_this_thread()));
        exit(1)
    })
}

// Past what a test runner keeps of a test's output, since the process ends.
fn tell(failure: &str) {
    // Where standard error is closed, the status is all that can be told.
    let _ = writeln!(io::stderr(), "far: {failure}");
}

extern "C" fn check(section: *const u8, length: usize) -> Verdict {
    let [number, index, ..] = called(Call::Check, &[bytes(section, length)], &[]);
    Verdict { number, index }
}

extern "C" fn function_at(section: *const u8, length: usize, index: u64) -> Function {
    let [number, known, start, size, rows, repeated, repeat, ..] =
        called(Call::FunctionAt, &[bytes(section, length)], &[index]);
    Function { number, known, start: start as i64, size, rows, repeated, repeat }
}

extern "C" fn rows_of(section: *const u8, length: usize, index: u64) -> Rows {
    let [abi, row_type, at, left, ..] = called(Call::RowsOf, &[bytes(section, length)], &[index]);
    Rows { abi, row_type, at, left }
}

extern "C" fn next_row(section: *const u8, length: usize, rows: Rows) -> Row {
    let Rows { abi, row_type, at, left } = rows;
    let [more, start, base, cfa, ra_place, ra, fp_place, fp, signed_ra, rest @ ..] =
        called(Call::NextRow, &[bytes(section, length)], &[abi, row_type, at, left]);
    let [abi, row_type, at, left] = rest;
    let rest = Rows { abi, row_type, at, left };
    Row { more, start, base, cfa: cfa as i64, ra_place, ra: ra as i64, fp_place, fp: fp as i64, signed_ra, rest }
}

extern "C" fn lookup(section: *const u8, length: usize, address: u64, pc: u64) -> Answer {
    answer(called(Call::Lookup, &[bytes(section, length)], &[address, pc]))
}

extern "C" fn ask(section: *const u8, length: usize, address: u64, pc: u64) -> Answer {
    answer(called(Call::Ask, &[bytes(section, length)], &[address, pc]))
}

fn answer(fields: [u64; FIELDS]) -> Answer {
    let [number, function, second, compared, row, start, base, cfa, ra_place, ra, fp_place, fp, signed_ra] = fields;
    let [cfa, ra, fp] = [cfa, ra, fp].map(|offset| offset as i64);
    Answer { number, function, second, compared, row, start, base, cfa, ra_place, ra, fp_place, fp, signed_ra }
}

extern "C" fn caller(
    section: *const u8,
    length: usize,
    stack: *const u8,
    stack_length: usize,
    process: Process,
    registers: Registers,
) -> Step {
    let lent = [bytes(section, length), bytes(stack, stack_length)];
    let [pc, sp, fp, lr, first, number, index, ..] = called(Call::Caller, &lent, &walked(process, registers, 0));
    Step { registers: Registers { pc, sp, fp, lr, first }, number, index }
}

#[allow(clippy::too_many_arguments)]
extern "C" fn trace(
    section: *const u8,
    length: usize,
    stack: *const u8,
    stack_length: usize,
    process: Process,
    registers: Registers,
    limit: u64,
    buffer: *mut u64,
    count: usize,
) -> Traced {
    let lent = [bytes(section, length), bytes(stack, stack_length), words(buffer, count)];
    let [frames, ending, index, ..] = called(Call::Trace, &lent, &walked(process, registers, limit));
    Traced { frames, ending, index }
}

fn walked(process: Process, registers: Registers, limit: u64) -> [u64; NUMBERS] {
    let Process { section_address, stack_address, mask } = process;
    let Registers { pc, sp, fp, lr, first } = registers;
    [section_address, stack_address, mask, pc, sp, fp, lr, first, limit]
}
