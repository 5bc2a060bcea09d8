//! Many lookups behind one call, and whole listings, by the proved library and by the reader, each folded into a digest
//! so that nothing can be left out.
#![allow(unsafe_code)]

use crate::reader::{Answer, Base, Block, Checked, Line, Outcome, Place, Row};

/// The verdict on the section, number 0 for accepted, and the digest of all answers, 0 where the section is refused.
#[repr(C)]
#[derive(Clone, Copy, Debug, PartialEq, Eq)]
pub struct Measured {
    pub number: u64,
    pub index: u64,
    pub digest: u64,
}

extern "C" {
    fn measure_finds(section: *const u8, length: usize, address: u64, pcs: *const u64, count: usize) -> Measured;
    fn measure_listing(section: *const u8, length: usize) -> Measured;
}

/// One check of the section by the library, then its lookups at these PCs.
pub fn by_library(section: &[u8], address: u64, pcs: &[u64]) -> Measured {
    // SAFETY: both pointers and lengths are those of slices, which are lent for the length of the call.
    unsafe { measure_finds(section.as_ptr(), section.len(), address, pcs.as_ptr(), pcs.len()) }
}

/// The same by the reader.
pub fn by_reader(section: &[u8], address: u64, pcs: &[u64]) -> Measured {
    match Checked::open(section) {
        Err(refusal) => Measured { number: refusal.number, index: refusal.index, digest: 0 },
        Ok(checked) => {
            let add =
                |digest: u32, &pc| digest.wrapping_mul(31).wrapping_add(weight(&checked.find(address, pc)) as u32);
            Measured { number: 0, index: 0, digest: pcs.iter().fold(0, add).into() }
        }
    }
}

/// The same by a reader that decodes every row on the way, in a section of one function that covers all these PCs.
pub fn by_decoding(section: &[u8], address: u64, pcs: &[u64]) -> Measured {
    match Checked::open(section) {
        Err(refusal) => Measured { number: refusal.number, index: refusal.index, digest: 0 },
        Ok(checked) => {
            let answer = |pc| Answer { outcome: checked.row_by_decoding(0, address, pc), compared: 1 };
            let add = |digest: u32, &pc| digest.wrapping_mul(31).wrapping_add(weight(&answer(pc)) as u32);
            Measured { number: 0, index: 0, digest: pcs.iter().fold(0, add).into() }
        }
    }
}

/// One check of the section by the library, then all its lines.
pub fn listed_by_library(section: &[u8]) -> Measured {
    // SAFETY: the pointer and the length are those of a slice, which is lent for the length of the call.
    unsafe { measure_listing(section.as_ptr(), section.len()) }
}

/// The same by the reader.
pub fn listed_by_reader(section: &[u8]) -> Measured {
    match Checked::open(section) {
        Err(refusal) => Measured { number: refusal.number, index: refusal.index, digest: 0 },
        Ok(checked) => {
            let add = |digest: u32, line| digest.wrapping_mul(31).wrapping_add(weight_of_line(&line) as u32);
            Measured { number: 0, index: 0, digest: checked.lines().fold(0, add).into() }
        }
    }
}

// A number that hardly stays the same where something else is answered.
fn weight(answer: &Answer) -> u64 {
    answer.compared
        + match answer.outcome {
            Outcome::Found { function, number, row } => function + number + weight_of_row(&row),
            Outcome::SectionRefused { .. } => unreachable!("the section was checked before"),
            Outcome::NoFunction => 21,
            Outcome::Disputed { first, second } => 22 + first + second,
            Outcome::NoRow { function } => 23 + function,
        }
}

fn weight_of_line(line: &Line) -> u64 {
    match line {
        Line::Function { index, start, size, block } => {
            let repeat = match block {
                Block::Plain => 0,
                Block::Repeated(repeat) => u64::from(*repeat),
            };
            index + start.unsigned_abs() + u64::from(*size) + repeat
        }
        Line::Row(row) => weight_of_row(row),
    }
}

fn weight_of_row(row: &Row) -> u64 {
    let base = match row.base {
        Base::Fp => 0,
        Base::Sp => 1,
    };
    let place = |place| match place {
        Place::Register => 0,
        Place::AtOffset(offset) => i64::unsigned_abs(offset),
    };
    u64::from(row.start) + base + row.cfa_offset.unsigned_abs() + place(row.ra) + place(row.fp) + u64::from(row.signed)
}
