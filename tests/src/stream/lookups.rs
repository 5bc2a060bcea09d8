//! Lookups to be made in a section of the stream: at the edges of its functions and rows, between them, and far away.
#![forbid(unsafe_code)]

use super::Random;
use crate::reader::{check, functions, Block, Function, Verdict};
use crate::ADDRESS;

/// Addresses with a PC each: some for an accepted section, most of them at or near an edge of it, and two for a refused
/// one, where all are answered alike.
pub fn questions(random: &mut Random, section: &[u8]) -> Vec<(u64, u64)> {
    let (functions, count) = match check(section) {
        Verdict::Accepted => (functions(section), 12),
        Verdict::Refused { .. } => (Vec::new(), 2),
    };
    let near = |random: &mut Random| {
        if functions.is_empty() {
            random.below(0x2000) as i64
        } else {
            place(random, &functions)
        }
    };
    (0..count).map(|_| question(random, near)).collect()
}

// At or near a place of the section, or far from it. A place beyond either end of the addresses gives the PC that is
// 2^64 away from it.
pub(super) fn question(random: &mut Random, near: impl FnOnce(&mut Random) -> i64) -> (u64, u64) {
    let address = match random.below(8) {
        0 => random.pick(&[0, 1, 0x1000, u64::MAX, u64::MAX - 0xfff, 1 << 63]),
        1 => random.number(),
        _ => ADDRESS,
    };
    let near = near(random);
    let far = match random.below(16) {
        0 => random.number() as i64,
        1 => random.pick(&[1 << 32, -(1 << 32), 1 << 33, i64::MIN, i64::MAX]),
        2 => random.below(0x1_0000_0000) as i64,
        _ => 0,
    };
    let pc = address.wrapping_add_signed(near).wrapping_add_signed(far);
    (address, if random.once_in(50) { random.pick(&[0, u64::MAX]) } else { pc })
}

fn place(random: &mut Random, functions: &[Function]) -> i64 {
    let function = &functions[random.index(functions.len())];
    let size = u64::from(function.size);
    let within = match random.below(8) {
        0 | 1 => 0,
        2 => size,
        3 => random.below(size + 1),
        _ => row_edge(random, function),
    };
    function.start + within as i64 + random.pick(&[-1, 0, 0, 0, 1])
}

// Where a row begins, in any of the blocks of a function that repeats them; the beginning where no row begins inside.
fn row_edge(random: &mut Random, function: &Function) -> u64 {
    let inside = function.rows.iter().filter(|row| row.start < function.size);
    let starts: Vec<u32> = inside.map(|row| row.start).collect();
    let start = if starts.is_empty() { 0 } else { random.pick(&starts).into() };
    match function.block {
        Block::Plain => start,
        Block::Repeated(repeat) => {
            let blocks = u64::from(function.size) / u64::from(repeat);
            start + random.below(blocks + 1) * u64::from(repeat)
        }
    }
}
