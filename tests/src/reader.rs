//! The independent reader: the section checks, the meaning of an accepted section, lookups in it, steps and traces by
//! it, its listing, one address asked of a section that is not checked, and why an answer is given. It is written from
//! document 01 alone, the last three from the words in which they were asked for.
//!
//! It is what the proved crates are compared with, so it shares nothing with them. Every sum is of i64 or u64 and exact:
//! a start is an i32 plus a position below 2^24 + 1, a size is below 2^32, and row counts add up to less than 2^52.
#![forbid(unsafe_code)]

mod ask;
mod caller;
mod decoding;
mod explain;
mod listing;
mod lookup;
mod named;
mod rows;
mod trace;

pub use ask::{ask, Asked, AskedOutcome};
pub use caller::{step, Process, Registers, Step};
pub use explain::{
    explain_lookup, explain_step, FoundRow, LookupWhy, Near, SavedWord, StepWhy, Sum, Then, Unfound, MOST_COVERING,
};
pub use listing::{function_at, listing, FunctionAt, Line};
pub use lookup::{lookup, Answer, Checked, Outcome};
pub use named::named_bytes;
pub use rows::{next_row, rows_of, NextRow, RowsAt};
use std::fmt;
pub use trace::{trace, Ending, Traced, USUAL_FRAMES};

const HEADER_BYTES: usize = 28;
const ENTRY_BYTES: usize = 20;
const MOST_BYTES: usize = 16_777_216;

const SORTED: u8 = 0x1;
const RELATIVE: u8 = 0x4;
const KNOWN_FLAGS: u8 = 0x7;

/// What the section checks say of a section.
#[derive(Clone, Copy, Debug, PartialEq, Eq)]
pub enum Verdict {
    Accepted,
    Refused { number: u64, index: u64 },
}

impl Verdict {
    /// Document 01's number; 0 for a section that is accepted.
    pub fn number(&self) -> u64 {
        match *self {
            Verdict::Accepted => 0,
            Verdict::Refused { number, .. } => number,
        }
    }
}

impl fmt::Display for Verdict {
    fn fmt(&self, to: &mut fmt::Formatter) -> fmt::Result {
        match self {
            Verdict::Accepted => write!(to, "accepted"),
            Verdict::Refused { number, index } => write!(to, "refused {number} at {index}"),
        }
    }
}

/// How a function's rows are laid over its bytes.
#[derive(Clone, Copy, Debug, PartialEq, Eq)]
pub enum Block {
    Plain,
    /// The rows describe one block of this many bytes, and the function is many such blocks.
    Repeated(u8),
}

/// The register that a CFA counts from.
#[derive(Clone, Copy, Debug, PartialEq, Eq)]
pub enum Base {
    Fp,
    Sp,
}

/// Where a caller's value was saved: still in its register, or at an offset from CFA.
#[derive(Clone, Copy, Debug, PartialEq, Eq)]
pub enum Place {
    Register,
    AtOffset(i64),
}

#[derive(Clone, Copy, Debug, PartialEq, Eq)]
pub struct Row {
    pub start: u32,
    pub base: Base,
    pub cfa_offset: i64,
    pub ra: Place,
    pub fp: Place,
    /// The return address is signed; never on AMD64, where the bit is ignored.
    pub signed: bool,
}

#[derive(Clone, Debug, PartialEq, Eq)]
pub struct Function {
    /// The effective start, counted from the section's first byte.
    pub start: i64,
    pub size: u32,
    pub block: Block,
    pub rows: Vec<Row>,
}

/// The section checks of document 01, in its order: the first broken rule, or none.
pub fn check(section: &[u8]) -> Verdict {
    match accept(section) {
        Ok(_) => Verdict::Accepted,
        Err(Refusal { number, index }) => Verdict::Refused { number, index },
    }
}

/// The functions of an accepted section, in the order of its entries.
///
/// # Panics
/// Where the section is refused: then it has no functions to speak of.
pub fn functions(section: &[u8]) -> Vec<Function> {
    match accept(section) {
        Ok(accepted) => accepted.functions(),
        Err(Refusal { number, index }) => panic!("the section is refused with {number} at {index}"),
    }
}

/// A broken rule's number and the index of the entry that breaks it.
#[derive(Clone, Copy, Debug, PartialEq, Eq)]
pub struct Refusal {
    pub number: u64,
    pub index: u64,
}

/// One rule, tried: refused with its number where it is broken.
fn rule(number: u64, broken: bool) -> Result<(), u64> {
    if broken {
        Err(number)
    } else {
        Ok(())
    }
}

// Rules 1 to 8, then every entry, then 15.
fn accept(section: &[u8]) -> Result<Parts<'_>, Refusal> {
    let parts = try_header(section).map_err(|number| Refusal { number, index: 0 })?;
    let mut rows_of_all = 0;
    let mut end_before = None;
    for index in 0..parts.table.len() {
        let entry = parts.entry(index);
        try_entry(&parts, &entry, end_before).map_err(|number| Refusal { number, index: index as u64 })?;
        end_before = Some(entry.start + i64::from(entry.size));
        rows_of_all += u64::from(entry.row_count);
    }
    rule(15, rows_of_all != parts.row_count).map_err(|number| Refusal { number, index: 0 })?;
    Ok(parts)
}

// Rules 1 to 8, which the header alone decides.
fn try_header(section: &[u8]) -> Result<Parts<'_>, u64> {
    rule(1, section.len() < HEADER_BYTES)?;
    rule(2, section.len() > MOST_BYTES)?;
    let header = Header::read(section).ok_or(3_u64)?;
    rule(4, header.version != 2)?;
    rule(5, header.flags & !KNOWN_FLAGS != 0)?;
    let machine = header.machine().ok_or(6_u64)?;
    let fixed = (header.fixed_fp, header.fixed_ra);
    rule(7, fixed != (0, machine.fixed_ra()))?;

    let table = HEADER_BYTES as u64 + u64::from(header.auxiliary);
    let table_bytes = ENTRY_BYTES as u64 * u64::from(header.functions);
    let whole = table + table_bytes + u64::from(header.row_bytes);
    let misplaced = header.table_offset != 0 || u64::from(header.area_offset) != table_bytes;
    rule(8, misplaced || whole != section.len() as u64)?;

    // From here on all three parts lie inside the section, so their ends are plain indexes of it.
    let table = table as usize;
    let area = table + table_bytes as usize;
    Ok(Parts {
        order: header.order,
        machine,
        sorted: header.flags & SORTED != 0,
        relative: header.flags & RELATIVE != 0,
        row_count: u64::from(header.rows),
        table_at: table,
        table: section[table..area].as_chunks().0,
        area: &section[area..],
    })
}

// Rules 9 to 14 of one entry; the end before it is that of the entry before it, if any.
fn try_entry(parts: &Parts, entry: &Entry, end_before: Option<i64>) -> Result<(), u64> {
    try_fields(parts, entry)?;
    let width = entry.start_width();
    let mut place = entry.first_row as usize;
    let mut start_before = None;
    for _ in 0..entry.row_count {
        let row = parts.row(place, width)?;
        rule(13, start_before.is_some_and(|before| row.start <= before))?;
        start_before = Some(row.start);
        place = row.end;
    }
    let too_low = end_before.is_some_and(|end| entry.start < end);
    rule(14, parts.sorted && too_low)
}

// Of rules 9 to 13 what the entry's own fields decide, no row being looked at.
#[inline(always)]
fn try_fields(parts: &Parts, entry: &Entry) -> Result<(), u64> {
    rule(9, entry.info & 0xc0 != 0 || entry.row_type() > 2)?;
    rule(10, entry.is_repeated() && entry.repeat == 0)?;
    rule(11, entry.first_row as usize > parts.area.len())
}

/// The order of the bytes of every number in a section.
#[derive(Clone, Copy, Debug, PartialEq, Eq)]
pub enum Order {
    Little,
    Big,
}

impl Order {
    /// The number in a field of 1, 2 or 4 bytes.
    #[inline(always)]
    fn unsigned(self, field: &[u8]) -> u32 {
        match (self, field) {
            (_, &[only]) => u32::from(only),
            (Order::Little, &[a, b]) => u32::from(u16::from_le_bytes([a, b])),
            (Order::Big, &[a, b]) => u32::from(u16::from_be_bytes([a, b])),
            (Order::Little, &[a, b, c, d]) => u32::from_le_bytes([a, b, c, d]),
            (Order::Big, &[a, b, c, d]) => u32::from_be_bytes([a, b, c, d]),
            _ => unreachable!("a field has 1, 2 or 4 bytes"),
        }
    }

    /// The same field, its highest bit being the sign.
    #[inline(always)]
    fn signed(self, field: &[u8]) -> i64 {
        // Moved up until that bit is the highest of 64, and back, which keeps the sign.
        let above = 64 - 8 * field.len();
        i64::from(self.unsigned(field)) << above >> above
    }
}

/// The fields of a header as they stand, true or not.
#[derive(Clone, Copy, Debug, PartialEq, Eq)]
pub struct Header {
    pub order: Order,
    pub version: u8,
    pub flags: u8,
    pub abi: u8,
    pub fixed_fp: i8,
    pub fixed_ra: i8,
    pub auxiliary: u8,
    pub functions: u32,
    pub rows: u32,
    pub row_bytes: u32,
    pub table_offset: u32,
    pub area_offset: u32,
}

impl Header {
    /// None where the bytes are too few, or begin with neither order's magic.
    pub fn read(section: &[u8]) -> Option<Header> {
        let bytes = section.get(..HEADER_BYTES)?;
        let order = match bytes[..2] {
            [0xe2, 0xde] => Order::Little,
            [0xde, 0xe2] => Order::Big,
            _ => return None,
        };
        let word = |at| order.unsigned(&bytes[at..at + 4]);
        Some(Header {
            order,
            version: bytes[2],
            flags: bytes[3],
            abi: bytes[4],
            fixed_fp: bytes[5] as i8,
            fixed_ra: bytes[6] as i8,
            auxiliary: bytes[7],
            functions: word(8),
            rows: word(12),
            row_bytes: word(16),
            table_offset: word(20),
            area_offset: word(24),
        })
    }

    // None where the ABI is unknown or disagrees with the byte order.
    fn machine(&self) -> Option<Machine> {
        match (self.abi, self.order) {
            (1, Order::Big) | (2, Order::Little) => Some(Machine::Aarch64),
            (3, Order::Little) => Some(Machine::Amd64),
            _ => None,
        }
    }
}

#[derive(Clone, Copy)]
enum Machine {
    Aarch64,
    Amd64,
}

impl Machine {
    fn fixed_ra(self) -> i8 {
        match self {
            Machine::Aarch64 => 0,
            Machine::Amd64 => -8,
        }
    }

    fn allows(self, count: u8) -> bool {
        match self {
            Machine::Aarch64 => (1..=3).contains(&count),
            Machine::Amd64 => (1..=2).contains(&count),
        }
    }
}

/// A section whose header obeys rules 1 to 8, taken apart.
struct Parts<'a> {
    order: Order,
    machine: Machine,
    sorted: bool,
    relative: bool,
    row_count: u64,
    /// Where the table stands in the section: a relative start counts from its own field.
    table_at: usize,
    table: &'a [[u8; ENTRY_BYTES]],
    area: &'a [u8],
}

impl Parts<'_> {
    // Inlined into the searches, which look at a start or a size and leave the rest unread.
    #[inline(always)]
    fn entry(&self, index: usize) -> Entry {
        let bytes = &self.table[index];
        let position = if self.relative { self.table_at + ENTRY_BYTES * index } else { 0 };
        Entry {
            start: self.order.signed(&bytes[0..4]) + position as i64,
            size: self.order.unsigned(&bytes[4..8]),
            first_row: self.order.unsigned(&bytes[8..12]),
            row_count: self.order.unsigned(&bytes[12..16]),
            info: bytes[16],
            repeat: bytes[17],
        }
    }

    // The row at a place of the row area, tried in document 01's order: fixed part inside, info, offsets inside.
    // Inlined by measurement: with a call for each row the checks of `bench` take nearly twice as long.
    #[inline(always)]
    fn row(&self, place: usize, start_width: usize) -> Result<TriedRow, u64> {
        let offsets_at = place + start_width + 1;
        let fixed = self.area.get(place..offsets_at).ok_or(11_u64)?;
        let (start, info) = (&fixed[..start_width], fixed[start_width]);
        let size_code = info >> 5 & 0x3;
        let count = info >> 1 & 0xf;
        rule(12, size_code == 3 || !self.machine.allows(count))?;
        let offset_width = 1 << size_code;
        let end = offsets_at + usize::from(count) * offset_width;
        rule(11, end > self.area.len())?;
        Ok(TriedRow { start: self.order.unsigned(start), end })
    }

    fn functions(&self) -> Vec<Function> {
        let entries = (0..self.table.len()).map(|index| self.entry(index));
        entries.map(|entry| self.function(&entry)).collect()
    }

    fn function(&self, entry: &Entry) -> Function {
        Function { start: entry.start, size: entry.size, block: entry.block(), rows: self.rows(entry).collect() }
    }

    // What a row of an accepted section means; bytes that follow its offsets are not looked at.
    fn meaning(&self, start: u32, info: u8, offsets: &[u8]) -> Row {
        match info >> 5 & 0x3 {
            0 => self.meaning_by_width::<1>(start, info, offsets),
            1 => self.meaning_by_width::<2>(start, info, offsets),
            _ => self.meaning_by_width::<4>(start, info, offsets),
        }
    }

    fn meaning_by_width<const WIDTH: usize>(&self, start: u32, info: u8, offsets: &[u8]) -> Row {
        let count = usize::from(info >> 1 & 0xf);
        let offset = |number: usize| self.order.signed(&offsets[WIDTH * number..WIDTH * (number + 1)]);
        let place = |number| if number < count { Place::AtOffset(offset(number)) } else { Place::Register };
        let (ra, fp) = match self.machine {
            Machine::Amd64 => (Place::AtOffset(-8), place(1)),
            Machine::Aarch64 => (place(1), place(2)),
        };
        Row {
            start,
            base: if info & 1 == 0 { Base::Fp } else { Base::Sp },
            cfa_offset: offset(0),
            ra,
            fp,
            signed: matches!(self.machine, Machine::Aarch64) && info & 0x80 != 0,
        }
    }
}

/// A function entry: its start effective, everything else as it stands.
struct Entry {
    start: i64,
    size: u32,
    first_row: u32,
    row_count: u32,
    info: u8,
    repeat: u8,
}

impl Entry {
    fn row_type(&self) -> u8 {
        self.info & 0xf
    }

    // 1, 2 or 4 bytes, once rule 9 holds.
    fn start_width(&self) -> usize {
        1 << self.row_type()
    }

    fn is_repeated(&self) -> bool {
        self.info & 0x10 != 0
    }

    fn block(&self) -> Block {
        if self.is_repeated() {
            Block::Repeated(self.repeat)
        } else {
            Block::Plain
        }
    }
}

/// A row that lies inside the row area.
struct TriedRow {
    start: u32,
    /// Where the next row begins.
    end: usize,
}

#[cfg(test)]
mod tests {
    use super::*;
    use crate::cases;

    #[test]
    fn every_case_is_judged_as_its_author_states() {
        for case in cases::all() {
            assert_eq!(check(&case.section), case.expected, "{}", case.name);
        }
    }

    #[test]
    fn the_functions_of_s_are_those_of_document_01() {
        let row =
            |start, base, cfa_offset, fp| Row { start, base, cfa_offset, ra: Place::AtOffset(-8), fp, signed: false };
        let function = |start, size, rows| Function { start, size, block: Block::Plain, rows };
        let at_entry = row(0, Base::Sp, 8, Place::Register);
        let with_frame = row(4, Base::Fp, 16, Place::AtOffset(-16));
        let expected = [function(0x1000, 0x20, vec![at_entry, with_frame]), function(0x1040, 0x10, vec![at_entry])];
        assert_eq!(functions(&cases::S), expected);
    }

    #[test]
    fn a_signed_field_takes_its_sign_from_its_own_highest_bit() {
        assert_eq!(Order::Little.signed(&[0xf0]), -16);
        assert_eq!(Order::Big.signed(&[0x7f]), 127);
        assert_eq!(Order::Little.signed(&[0x00, 0x80]), -32768);
        assert_eq!(Order::Big.signed(&[0x00, 0x80]), 128);
        assert_eq!(Order::Little.signed(&[0, 0, 0, 0x80]), -2_147_483_648);
        assert_eq!(Order::Big.signed(&[0xff, 0xff, 0xff, 0xfe]), -2);
    }
}
