//! The proved library, called as a program in C would call it.
#![allow(unsafe_code)]

pub mod depths;
pub mod empty;
pub mod far;
pub mod rooms;

use crate::reader::{self, AskedOutcome, Base, Ending, Outcome, Place};

/// What `suntimpani_check` answers; number 0 is accepted.
#[repr(C)]
struct Verdict {
    number: u64,
    index: u64,
}

/// What `suntimpani_function_at` answers: 0 in every field but the number where there is no such function.
#[repr(C)]
#[derive(Clone, Copy, Debug, Default, PartialEq, Eq)]
pub struct Function {
    pub number: u64,
    /// 1 where there is such a function.
    pub known: u64,
    pub start: i64,
    pub size: u64,
    pub rows: u64,
    /// 1 for repeated blocks, of the size beside it.
    pub repeated: u64,
    pub repeat: u64,
}

/// Where a reader of rows stands: what `suntimpani_rows_of` answers.
#[repr(C)]
#[derive(Clone, Copy, Debug, Default, PartialEq, Eq)]
pub struct Rows {
    pub abi: u64,
    pub row_type: u64,
    pub at: u64,
    pub left: u64,
}

/// What `suntimpani_next_row` answers: 0 in every field but the rest where there are no more.
#[repr(C)]
#[derive(Clone, Copy, Debug, Default, PartialEq, Eq)]
pub struct Row {
    /// 1 where there is a row.
    pub more: u64,
    pub start: u64,
    pub base: u64,
    pub cfa: i64,
    pub ra_place: u64,
    pub ra: i64,
    pub fp_place: u64,
    pub fp: i64,
    pub signed_ra: u64,
    pub rest: Rows,
}

/// What `suntimpani_lookup` and `suntimpani_ask` answer: the number, 0 for found, and 0 in every field that means
/// nothing then.
#[repr(C)]
#[derive(Clone, Copy, Debug, Default, PartialEq, Eq)]
pub struct Answer {
    pub number: u64,
    /// The function's index; a lookup's for 1 to 15 is the entry's, for 22 the lower of two.
    pub function: u64,
    /// The other of two for 22.
    pub second: u64,
    pub compared: u64,
    /// The row's number in the function.
    pub row: u64,
    pub start: u64,
    /// 0 FP, 1 SP.
    pub base: u64,
    pub cfa: i64,
    /// 0 in a register, 1 at the offset beside it.
    pub ra_place: u64,
    pub ra: i64,
    pub fp_place: u64,
    pub fp: i64,
    pub signed_ra: u64,
}

#[repr(C)]
struct Process {
    section_address: u64,
    stack_address: u64,
    mask: u64,
}

#[repr(C)]
#[derive(Clone, Copy, Debug, PartialEq, Eq)]
pub struct Registers {
    pub pc: u64,
    pub sp: u64,
    pub fp: u64,
    pub lr: u64,
    pub first: u64,
}

/// What `suntimpani_caller` answers: number 0 with the caller's registers, or a refusal's number with the old ones.
#[repr(C)]
#[derive(Clone, Copy, Debug, PartialEq, Eq)]
pub struct Step {
    pub registers: Registers,
    pub number: u64,
    /// The entry's for 1 to 15, otherwise 0.
    pub index: u64,
}

/// What `suntimpani_trace` answers besides the words of the buffer.
#[repr(C)]
#[derive(Clone, Copy, Debug, PartialEq, Eq)]
pub struct Traced {
    pub frames: u64,
    pub ending: u64,
    /// The entry's for 1 to 15, otherwise 0.
    pub index: u64,
}

extern "C" {
    fn suntimpani_check(section: *const u8, length: usize) -> Verdict;
    fn suntimpani_function_at(section: *const u8, length: usize, index: u64) -> Function;
    fn suntimpani_rows_of(section: *const u8, length: usize, index: u64) -> Rows;
    fn suntimpani_next_row(section: *const u8, length: usize, rows: Rows) -> Row;
    fn suntimpani_lookup(section: *const u8, length: usize, address: u64, pc: u64) -> Answer;
    fn suntimpani_ask(section: *const u8, length: usize, address: u64, pc: u64) -> Answer;
    fn suntimpani_caller(
        section: *const u8,
        length: usize,
        stack: *const u8,
        stack_length: usize,
        process: Process,
        registers: Registers,
    ) -> Step;
    fn suntimpani_trace(
        section: *const u8,
        length: usize,
        stack: *const u8,
        stack_length: usize,
        process: Process,
        registers: Registers,
        limit: u64,
        buffer: *mut u64,
        words: usize,
    ) -> Traced;
}

/// Eight calls of one form, as a program in C has them.
#[derive(Clone, Copy)]
pub struct Calls {
    check: unsafe extern "C" fn(*const u8, usize) -> Verdict,
    function_at: unsafe extern "C" fn(*const u8, usize, u64) -> Function,
    rows_of: unsafe extern "C" fn(*const u8, usize, u64) -> Rows,
    next_row: unsafe extern "C" fn(*const u8, usize, Rows) -> Row,
    lookup: unsafe extern "C" fn(*const u8, usize, u64, u64) -> Answer,
    ask: unsafe extern "C" fn(*const u8, usize, u64, u64) -> Answer,
    caller: unsafe extern "C" fn(*const u8, usize, *const u8, usize, Process, Registers) -> Step,
    trace: unsafe extern "C" fn(*const u8, usize, *const u8, usize, Process, Registers, u64, *mut u64, usize) -> Traced,
}

/// The calls of the proved library.
pub const LIBRARY: Calls = Calls {
    check: suntimpani_check,
    function_at: suntimpani_function_at,
    rows_of: suntimpani_rows_of,
    next_row: suntimpani_next_row,
    lookup: suntimpani_lookup,
    ask: suntimpani_ask,
    caller: suntimpani_caller,
    trace: suntimpani_trace,
};

impl Calls {
    /// The verdict. An accepted section has no entry to name, so that 0 with any index but 0 stays visible.
    #[inline]
    pub fn check(&self, section: &[u8]) -> reader::Verdict {
        // SAFETY: the pointer and the length are those of a slice, which is lent for the length of the call.
        let said = unsafe { (self.check)(section.as_ptr(), section.len()) };
        match (said.number, said.index) {
            (0, 0) => reader::Verdict::Accepted,
            (number, index) => reader::Verdict::Refused { number, index },
        }
    }

    /// What is said of an index, every field as it came.
    #[inline]
    pub fn function_at(&self, section: &[u8], index: u64) -> Function {
        // SAFETY: the pointer and the length are those of a slice, which is lent for the length of the call.
        unsafe { (self.function_at)(section.as_ptr(), section.len(), index) }
    }

    /// Where the rows of a function begin, every field as it came.
    #[inline]
    pub fn rows_of(&self, section: &[u8], index: u64) -> Rows {
        // SAFETY: the pointer and the length are those of a slice, which is lent for the length of the call.
        unsafe { (self.rows_of)(section.as_ptr(), section.len(), index) }
    }

    /// The next row, every field as it came.
    #[inline]
    pub fn next_row(&self, section: &[u8], rows: Rows) -> Row {
        // SAFETY: the pointer and the length are those of a slice, which is lent for the length of the call.
        unsafe { (self.next_row)(section.as_ptr(), section.len(), rows) }
    }

    /// The answer, every field as it came.
    #[inline]
    pub fn lookup(&self, section: &[u8], address: u64, pc: u64) -> Answer {
        // SAFETY: the pointer and the length are those of a slice, which is lent for the length of the call.
        unsafe { (self.lookup)(section.as_ptr(), section.len(), address, pc) }
    }

    /// The answer without a check of the whole section, every field as it came.
    #[inline]
    pub fn ask(&self, section: &[u8], address: u64, pc: u64) -> Answer {
        // SAFETY: the pointer and the length are those of a slice, which is lent for the length of the call.
        unsafe { (self.ask)(section.as_ptr(), section.len(), address, pc) }
    }

    /// The step, every field as it came.
    #[inline]
    pub fn step(&self, section: &[u8], stack: &[u8], process: reader::Process, registers: reader::Registers) -> Step {
        let (process, registers) = (Process::of(process), Registers::of(registers));
        // SAFETY: both pointers and lengths are those of slices, which are lent for the length of the call.
        unsafe { (self.caller)(section.as_ptr(), section.len(), stack.as_ptr(), stack.len(), process, registers) }
    }

    /// The trace, every field as it came.
    #[inline]
    pub fn trace(
        &self,
        section: &[u8],
        stack: &[u8],
        process: reader::Process,
        registers: reader::Registers,
        limit: u64,
        buffer: &mut [u64],
    ) -> Traced {
        let (process, registers) = (Process::of(process), Registers::of(registers));
        let (section_at, stack_at, buffer_at) = (section.as_ptr(), stack.as_ptr(), buffer.as_mut_ptr());
        let (length, stack_length, words) = (section.len(), stack.len(), buffer.len());
        // SAFETY: the pointers and lengths are those of slices, lent for the length of the call; no other is the
        // buffer's.
        unsafe { (self.trace)(section_at, length, stack_at, stack_length, process, registers, limit, buffer_at, words) }
    }
}

impl Process {
    fn of(process: reader::Process) -> Process {
        let reader::Process { section, stack, mask } = process;
        Process { section_address: section, stack_address: stack, mask }
    }
}

impl Registers {
    fn of(registers: reader::Registers) -> Registers {
        let reader::Registers { pc, sp, fp, lr, first } = registers;
        Registers { pc, sp, fp, lr, first }
    }
}

impl Function {
    /// What the library must say where the reader says this.
    pub fn of(told: &reader::FunctionAt) -> Function {
        let reader::FunctionAt { number, known, start, size, rows, repeated, repeat } = *told;
        Function { number, known: known.into(), start, size, rows, repeated: repeated.into(), repeat }
    }
}

impl Rows {
    /// The same place, as it is handed in and as the library must tell it.
    pub fn of(place: &reader::RowsAt) -> Rows {
        let reader::RowsAt { abi, row_type, at, left } = *place;
        Rows { abi, row_type, at, left }
    }
}

impl Row {
    /// What the library must answer where the reader answers this.
    pub fn of(next: &reader::NextRow) -> Row {
        let rest = Rows::of(&next.rest);
        let Some(row) = next.row else { return Row { rest, ..Row::default() } };
        let Answer { start, base, cfa, ra_place, ra, fp_place, fp, signed_ra, .. } = Answer::default().with(&row);
        Row { more: 1, start, base, cfa, ra_place, ra, fp_place, fp, signed_ra, rest }
    }
}

impl Step {
    /// The step that the library must answer with where the reader answers with this one.
    pub fn of(step: &reader::Step) -> Step {
        let (registers, number, index) = match *step {
            reader::Step::Caller(caller) => (caller, 0, 0),
            reader::Step::Unsound { old, number, index } => (old, number, index),
            reader::Step::Refused { old, number } => (old, number, 0),
        };
        Step { registers: Registers::of(registers), number, index }
    }
}

impl Traced {
    /// What the library must answer where the reader answers this.
    pub fn of(traced: &reader::Traced) -> Traced {
        let index = match traced.ending {
            Ending::Unsound { index, .. } => index,
            Ending::Outermost | Ending::Full | Ending::Refused(_) => 0,
        };
        Traced { frames: traced.frames, ending: traced.ending.number(), index }
    }
}

impl Answer {
    /// The answer that the library must give where the reader gives this one.
    pub fn of(answer: &reader::Answer) -> Answer {
        let bare = Answer { number: answer.refusal(), compared: answer.compared, ..Answer::default() };
        match answer.outcome {
            Outcome::Found { function, number, row } => Answer { function, row: number, ..bare.with(&row) },
            Outcome::SectionRefused { index, .. } => Answer { function: index, ..bare },
            Outcome::NoFunction => bare,
            Outcome::Disputed { first, second } => Answer { function: first, second, ..bare },
            Outcome::NoRow { function } => Answer { function, ..bare },
        }
    }

    /// The same of what the reader answers when it is asked without a check of the whole section.
    pub fn of_asked(asked: &reader::Asked) -> Answer {
        let bare = Answer { number: asked.refusal(), compared: asked.compared, ..Answer::default() };
        match asked.outcome {
            AskedOutcome::Found { function, number, row } => Answer { function, row: number, ..bare.with(&row) },
            AskedOutcome::NoRow { function } | AskedOutcome::Damaged { function } => Answer { function, ..bare },
            AskedOutcome::Unsound(_) | AskedOutcome::Unsorted | AskedOutcome::NoFunction => bare,
        }
    }

    fn with(self, row: &reader::Row) -> Answer {
        let place = |place| match place {
            Place::Register => (0, 0),
            Place::AtOffset(offset) => (1, offset),
        };
        let ((ra_place, ra), (fp_place, fp)) = (place(row.ra), place(row.fp));
        let base = match row.base {
            Base::Fp => 0,
            Base::Sp => 1,
        };
        let (start, cfa, signed_ra) = (row.start.into(), row.cfa_offset, row.signed.into());
        Answer { start, base, cfa, ra_place, ra, fp_place, fp, signed_ra, ..self }
    }
}
