//! The eight functions of the C surface, with slices in place of pointers and lengths: the crate's only unsafe code.

#[repr(C)]
pub struct Verdict {
    pub number: u64,
    pub index: u64,
}

#[repr(C)]
pub struct Function {
    pub number: u64,
    pub known: u64,
    pub start: i64,
    pub size: u64,
    pub rows: u64,
    pub repeated: u64,
    pub repeat: u64,
}

#[repr(C)]
#[derive(Clone, Copy, Debug)]
pub struct Rows {
    pub abi: u64,
    pub code: u64,
    pub at: u64,
    pub left: u64,
}

/// A row's own fields, which stand alike in both structs that have a row.
#[repr(C)]
pub struct Told {
    pub start: u64,
    pub base: u64,
    pub cfa: i64,
    pub ra_place: u64,
    pub ra: i64,
    pub fp_place: u64,
    pub fp: i64,
    pub signed_ra: u64,
}

#[repr(C)]
pub struct Row {
    pub more: u64,
    pub told: Told,
    pub rest: Rows,
}

#[repr(C)]
pub struct Answer {
    pub number: u64,
    pub function: u64,
    pub second: u64,
    pub compared: u64,
    pub row: u64,
    pub told: Told,
}

#[repr(C)]
pub struct Process {
    pub section_address: u64,
    pub stack_address: u64,
    pub mask: u64,
}

#[repr(C)]
pub struct Registers {
    pub pc: u64,
    pub sp: u64,
    pub fp: u64,
    pub lr: u64,
    pub first: u64,
}

#[repr(C)]
pub struct Step {
    pub registers: Registers,
    pub number: u64,
    pub index: u64,
}

#[repr(C)]
pub struct Traced {
    pub frames: u64,
    pub ending: u64,
    pub index: u64,
}

extern "C" {
    fn suntimpani_check(section: *const u8, length: usize) -> Verdict;
    fn suntimpani_function_at(section: *const u8, length: usize, index: u64) -> Function;
    fn suntimpani_rows_of(section: *const u8, length: usize, index: u64) -> Rows;
    fn suntimpani_next_row(section: *const u8, length: usize, rows: Rows) -> Row;
    fn suntimpani_lookup(section: *const u8, length: usize, address: u64, pc: u64) -> Answer;
    fn suntimpani_ask(section: *const u8, length: usize, address: u64, pc: u64) -> Answer;
    fn suntimpani_caller(
        section: *const u8,
        length: usize,
        stack: *const u8,
        stack_length: usize,
        process: Process,
        registers: Registers,
    ) -> Step;
    fn suntimpani_trace(
        section: *const u8,
        length: usize,
        stack: *const u8,
        stack_length: usize,
        process: Process,
        registers: Registers,
        limit: u64,
        buffer: *mut u64,
        words: usize,
    ) -> Traced;
}

pub fn check(section: &[u8]) -> Verdict {
    // SAFETY: the pointer and the length are those of a slice, which is lent for the length of the call.
    unsafe { suntimpani_check(section.as_ptr(), section.len()) }
}

pub fn function_at(section: &[u8], index: u64) -> Function {
    // SAFETY: the pointer and the length are those of a slice, which is lent for the length of the call.
    unsafe { suntimpani_function_at(section.as_ptr(), section.len(), index) }
}

pub fn rows_of(section: &[u8], index: u64) -> Rows {
    // SAFETY: the pointer and the length are those of a slice, which is lent for the length of the call.
    unsafe { suntimpani_rows_of(section.as_ptr(), section.len(), index) }
}

pub fn next_row(section: &[u8], rows: Rows) -> Row {
    // SAFETY: the pointer and the length are those of a slice, which is lent for the length of the call.
    unsafe { suntimpani_next_row(section.as_ptr(), section.len(), rows) }
}

pub fn lookup(section: &[u8], address: u64, pc: u64) -> Answer {
    // SAFETY: the pointer and the length are those of a slice, which is lent for the length of the call.
    unsafe { suntimpani_lookup(section.as_ptr(), section.len(), address, pc) }
}

pub fn ask(section: &[u8], address: u64, pc: u64) -> Answer {
    // SAFETY: the pointer and the length are those of a slice, which is lent for the length of the call.
    unsafe { suntimpani_ask(section.as_ptr(), section.len(), address, pc) }
}

pub fn caller(section: &[u8], stack: &[u8], process: Process, registers: Registers) -> Step {
    // SAFETY: both pointers and lengths are those of slices, which are lent for the length of the call.
    unsafe { suntimpani_caller(section.as_ptr(), section.len(), stack.as_ptr(), stack.len(), process, registers) }
}

pub fn trace(
    section: &[u8],
    stack: &[u8],
    process: Process,
    registers: Registers,
    limit: u64,
    buffer: &mut [u64],
) -> Traced {
    let (section_at, stack_at, buffer_at) = (section.as_ptr(), stack.as_ptr(), buffer.as_mut_ptr());
    let (length, stack_length, words) = (section.len(), stack.len(), buffer.len());
    // SAFETY: pointers and lengths are those of slices, lent for the length of the call. The buffer is lent to be
    // written to, so it overlaps neither of the others.
    unsafe { suntimpani_trace(section_at, length, stack_at, stack_length, process, registers, limit, buffer_at, words) }
}
