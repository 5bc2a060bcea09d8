//! Eight calls of the library's form that do nothing: what they use of a stack, the form itself uses.

use super::{Answer, Calls, Function, Process, Registers, Row, Rows, Step, Traced, Verdict};

pub const EMPTY: Calls = Calls { check, function_at, rows_of, next_row, lookup, ask, caller, trace };

extern "C" fn check(_: *const u8, _: usize) -> Verdict {
    Verdict { number: 0, index: 0 }
}

extern "C" fn function_at(_: *const u8, _: usize, _: u64) -> Function {
    Function::default()
}

extern "C" fn rows_of(_: *const u8, _: usize, _: u64) -> Rows {
    Rows::default()
}

extern "C" fn next_row(_: *const u8, _: usize, _: Rows) -> Row {
    Row::default()
}

extern "C" fn lookup(_: *const u8, _: usize, _: u64, _: u64) -> Answer {
    Answer::default()
}

extern "C" fn ask(_: *const u8, _: usize, _: u64, _: u64) -> Answer {
    Answer::default()
}

extern "C" fn caller(_: *const u8, _: usize, _: *const u8, _: usize, _: Process, registers: Registers) -> Step {
    Step { registers, number: 0, index: 0 }
}

#[allow(clippy::too_many_arguments)]
extern "C" fn trace(
    _: *const u8,
    _: usize,
    _: *const u8,
    _: usize,
    _: Process,
    _: Registers,
    _: u64,
    _: *mut u64,
    _: usize,
) -> Traced {
    Traced { frames: 0, ending: 0, index: 0 }
}
