//! Walks: a step and a trace to be made in a case's section, and the ground that most of them are made on.
//!
//! No answer comes from the reader's steps and traces. The author states it whole, or it follows from the definition in
//! `obvious`, applied to the description that the section was built from.

use super::{case, Case, ACCEPTED};
use crate::maker::{Function, Machine, Row, Section, SORTED};
use crate::obvious::Meaning;
use crate::reader::{Process, Registers};
use crate::walk::{Walk, Walked};
use crate::ADDRESS;

/// A walk and what it must come to.
pub type Expected = (Walk, Walked);

/// The distance between the starts of two functions of a ground, and the size of each.
const STRIDE: u32 = 0x100;

/// A section to be walked in, and what its description means.
pub struct Ground {
    pub machine: Machine,
    pub section: Section,
    meaning: Meaning,
}

/// A stack window: its address and its bytes.
pub type Stack = (u64, Vec<u8>);

impl Ground {
    pub fn of(machine: Machine, section: Section) -> Ground {
        Ground { machine, meaning: Meaning::described(&section), section }
    }

    /// A sorted section with a function for each row, that row being its only one.
    pub fn of_rows(machine: Machine, rows: Vec<Row>) -> Ground {
        let function = |(row, number): (Row, i64)| Function::new(start_of(number), STRIDE, 0, vec![row]);
        let mut section = Section::new(machine);
        section.flags = SORTED;
        section.functions = rows.into_iter().zip(0..).map(function).collect();
        Ground::of(machine, section)
    }

    /// These words, one behind the other.
    pub fn words(&self, address: u64, words: &[u64]) -> Stack {
        (address, words.iter().flat_map(|&word| self.word(word)).collect())
    }

    fn word(&self, word: u64) -> [u8; 8] {
        if self.section.big {
            word.to_be_bytes()
        } else {
            word.to_le_bytes()
        }
    }

    /// A walk of at most four frames, by the definition.
    pub fn walk(&self, registers: Registers, stack: Stack) -> Expected {
        self.walk_with(registers, stack, 4, 12)
    }

    pub fn walk_with(&self, registers: Registers, stack: Stack, limit: u64, words: usize) -> Expected {
        let process = Process { section: ADDRESS, stack: stack.0, mask: 0 };
        self.defined(Walk { process, registers, stack: stack.1, limit, words })
    }

    /// The same as `walk`, with the section at another address.
    pub fn walk_from(&self, section: u64, registers: Registers, stack: Stack) -> Expected {
        let process = Process { section, stack: stack.0, mask: 0 };
        self.defined(Walk { process, registers, stack: stack.1, limit: 4, words: 12 })
    }

    /// A walk and what it comes to by the definition.
    pub fn defined(&self, walk: Walk) -> Expected {
        let walked = walk.by_definition(&self.meaning);
        (walk, walked)
    }

    pub fn case(&self, name: &str, walks: Vec<Expected>) -> Case {
        case(format!("ok_walk_{name}_{}", self.machine.tag()), &self.section, ACCEPTED).walked(walks)
    }
}

/// What is stored of walks that come to much the same on every machine: all of them for AMD64, and each for one of the
/// byte orders of AArch64.
pub fn shared_out(machine: Machine, walks: Vec<Expected>) -> Vec<Expected> {
    match machine {
        Machine::Amd64 => walks,
        Machine::Aarch64 => half(walks, 0),
        Machine::Aarch64Big => half(walks, 1),
    }
}

/// One half or the other, by a sequence without a period, so that no table of pairs loses one kind of them.
pub fn half(walks: Vec<Expected>, which: u32) -> Vec<Expected> {
    let places = walks.into_iter().zip(0_u32..);
    places.filter(|(_, place)| place.count_ones() % 2 == which).map(|(walk, _)| walk).collect()
}

/// Where the function of that number starts.
pub fn start_of(number: i64) -> i64 {
    0x1000 + i64::from(STRIDE) * number
}

/// A PC in the function of that number.
pub fn pc_in(number: i64) -> u64 {
    ADDRESS.wrapping_add_signed(start_of(number) + 0x2c)
}

/// A row from SP that saves RA at CFA - 8 on every machine, and FP where an offset is given.
pub fn from_sp(machine: Machine, cfa: i32, fp: Option<i32>) -> Row {
    let ra = (machine != Machine::Amd64).then_some(-8);
    let offsets: Vec<i32> = [Some(cfa), ra, fp].into_iter().flatten().collect();
    // The narrowest offsets that hold them all.
    let fits = |bits: u32| offsets.iter().all(|&o| (-(1_i64 << bits)..1 << bits).contains(&o.into()));
    let size_code = if fits(7) { 0 } else { 1 + u8::from(!fits(15)) };
    Row::new(0, size_code, &offsets)
}

/// The same from FP.
pub fn from_fp(machine: Machine, cfa: i32, fp: Option<i32>) -> Row {
    Row { sp_base: false, ..from_sp(machine, cfa, fp) }
}

/// A row from SP that leaves RA in LR, which only AArch64 has.
pub fn in_lr(cfa: i32) -> Row {
    Row::new(0, 0, &[cfa])
}

/// The row with its signed bit set.
pub fn signed(row: Row) -> Row {
    Row { signed: true, ..row }
}

/// PC, SP and FP; LR that no walk finds, and the mark.
pub fn at(pc: u64, sp: u64, fp: u64) -> Registers {
    Registers { pc, sp, fp, lr: 0x1111_2222_3333_4444, first: 1 }
}

/// The same without the mark.
pub fn later(registers: Registers) -> Registers {
    Registers { first: 0, ..registers }
}

/// Walks in a section that is refused with a number at an index: one, or all that tell in which order the rules stand.
pub fn in_refused(number: u64, index: u64, all: bool) -> Vec<Expected> {
    let meaning = Meaning::refused(number, index);
    let walk = |registers, stack, length, limit, words| {
        let process = Process { section: ADDRESS, stack, mask: 0 };
        let walk = Walk { process, registers, stack: vec![0; length], limit, words };
        let walked = walk.by_definition(&meaning);
        (walk, walked)
    };
    let covered = at(pc_in(2), 0x7000, 0x7008);
    let mut walks = vec![walk(covered, 0x7000, 16, 2, 6)];
    if all {
        let far = Registers { pc: u64::MAX, sp: u64::MAX, fp: 0, lr: 7, first: 9 };
        walks.push(walk(later(far), 0x7000, 0, 64, 192));
        // 41 before the section's refusal, and for a trace 42 and 43 too.
        walks.push(walk(far, u64::MAX, 2, 2, 6));
        walks.push(walk(covered, 0x7000, 16, 257, 1000));
        walks.push(walk(covered, 0x7000, 16, 2, 5));
        walks.push(walk(covered, u64::MAX - 7, 9, 257, 0));
    }
    walks
}
