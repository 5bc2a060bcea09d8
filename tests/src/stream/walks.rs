//! Walks to be made in a section of the stream: stacks full of PCs, of stack addresses and of 0, so that many of them
//! go several frames deep, some as deep as a limit allows, through signed rows too; registers, windows, masks, limits
//! and buffers at their edges.
#![forbid(unsafe_code)]

use super::{damaged, sound, Random};
use crate::cases::signed::USUAL;
use crate::laid::if_usable;
use crate::maker::{Machine, Row, Section, SORTED};
use crate::reader::{functions, Base, Checked, Function, Outcome, Place, Process, Registers};
use crate::walk::Walk;
use crate::ADDRESS;

/// A section that can be walked in, most of the time: its rows lead a little way up the stack. One in four is damaged.
pub fn walkable(random: &mut Random) -> Vec<u8> {
    let mut section = sound(random);
    // Most without a row to be found, and most with functions that overlap, are passed over.
    while (!has_a_row(&section) || section.flags & SORTED == 0) && !random.once_in(4) {
        section = sound(random);
    }
    let machine = machine_of(&section);
    for function in &mut section.functions {
        for row in &mut function.rows {
            if !random.once_in(8) {
                *row = short_row(random, machine, row.start);
            }
        }
    }
    match random.below(32) {
        kind @ 0..=7 => damaged(random, section, kind),
        _ => section.bytes(),
    }
}

fn has_a_row(section: &Section) -> bool {
    section.functions.iter().any(|function| function.rows.iter().any(|row| row.start < function.size))
}

fn machine_of(section: &Section) -> Machine {
    match section.abi {
        1 => Machine::Aarch64Big,
        2 => Machine::Aarch64,
        _ => Machine::Amd64,
    }
}

// Frames of 0 to 48 bytes, the words in them saved near CFA, a third of them where a compiler saves them, and seldom
// from FP.
pub(super) fn short_row(random: &mut Random, machine: Machine, start: u32) -> Row {
    let saved = [-8, -16, -8, -16, -8, -16, -8, -16, -24, -24, 0, 8, -1];
    let cfa = random.pick(&[8, 8, 8, 8, 16, 16, 16, 16, 16, 24, 32, 32, 48, 48, 0, -8, 1]);
    let offsets = match (random.once_in(3), machine) {
        (false, _) => [cfa, random.pick(&saved), random.pick(&saved)],
        (true, Machine::Amd64) => [random.pick(&[16, 32]), -16, 0],
        (true, _) => [random.pick(&[16, 32]), -8, -16],
    };
    let count = match machine {
        Machine::Amd64 => 1 + random.index(2),
        _ => random.pick(&[1, 2, 2, 3, 3]),
    };
    let mut row = Row::new(start, random.below(3) as u8, &offsets[..count]);
    row.sp_base = !random.once_in(4);
    row.signed = random.once_in(2);
    row
}

/// Walks in a section: several where it is accepted, and two where it is refused, since they come to little else.
pub fn walks(random: &mut Random, section: &[u8]) -> Vec<Walk> {
    let big = section.first() == Some(&0xde);
    let Ok(checked) = Checked::open(section) else {
        return (0..2).map(|_| walk(random, &[], big)).collect();
    };
    let functions = functions(section);
    let one = |random: &mut Random| {
        let mut walk = walk(random, &functions, big);
        if random.once_in(2) {
            lay_frames(random, &checked, &functions, big, &mut walk);
        }
        walk
    };
    let mut walks: Vec<Walk> = (0..8).map(|_| one(random)).collect();
    if random.once_in(8) {
        walks.extend(deep(random, section));
    }
    walks
}

// About as many frames as the usual limit or the highest allows, if a row can be laid out, and about as many allowed.
fn deep(random: &mut Random, section: &[u8]) -> Option<Walk> {
    let (frames, mask) = (random.pick(&[126, 127, 128, 129, 200, 255, 256, 257]), mask(random));
    let limit = random.pick(&[0, 0, 0, 0, 64, 127, 128, 129, 255, 256]);
    let laid = if_usable(section, frames, random.number(), mask)?;
    Some(Walk { limit, words: words_for(random, limit), ..laid })
}

// Frames that lead from one function to the next, as far as the window goes or something else ends them.
fn lay_frames(random: &mut Random, checked: &Checked, functions: &[Function], big: bool, walk: &mut Walk) {
    let Process { section, mask, .. } = walk.process;
    if !random.once_in(3) {
        walk.registers.pc = leading_on(random, checked, functions, section).wrapping_sub(1);
    }
    let (mut sp, mut fp, mut looked_up) = (walk.registers.sp, walk.registers.fp, walk.registers.pc);
    for frame in 0..random.below(24) {
        let Outcome::Found { row, .. } = checked.find(section, looked_up).outcome else { return };
        let base = if row.base == Base::Sp { sp } else { fp };
        sp = base.wrapping_add_signed(row.cfa_offset);
        let next = if random.once_in(16) { 0 } else { leading_on(random, checked, functions, section) };
        // Now and then an RA is signed that should not be, or is not that should.
        let ra = if row.signed != random.once_in(24) { next | signature(random, mask) } else { next };
        match row.ra {
            // Only the first frame has RA in LR.
            Place::Register if frame > 0 => return,
            Place::Register => walk.registers.lr = ra,
            Place::AtOffset(offset) => put(walk, big, sp.wrapping_add_signed(offset), ra),
        }
        let returns_to = if row.signed { ra & !mask } else { ra };
        looked_up = returns_to.wrapping_sub(1);
        if let Place::AtOffset(offset) = row.fp {
            fp = sp.wrapping_add(8 * random.below(4));
            put(walk, big, sp.wrapping_add_signed(offset), fp);
        }
    }
}

// Of a few return addresses the first whose row has a frame of its own with RA's word in it, apart from FP's.
fn leading_on(random: &mut Random, checked: &Checked, functions: &[Function], section: u64) -> u64 {
    let has_frame = |ra: u64| match checked.find(section, ra.wrapping_sub(1)).outcome {
        Outcome::Found { row, .. } => {
            let inside = |place| matches!(place, Place::AtOffset(offset) if -row.cfa_offset <= offset && offset <= -8);
            row.base == Base::Sp && inside(row.ra) && (row.fp == Place::Register || inside(row.fp) && row.fp != row.ra)
        }
        _ => false,
    };
    let mut ra = return_address(random, functions, section);
    for _ in 0..random.below(16) {
        if has_frame(ra) {
            return ra;
        }
        ra = return_address(random, functions, section);
    }
    ra
}

// Writes a word where it lies wholly inside the window.
fn put(walk: &mut Walk, big: bool, address: u64, word: u64) {
    let place = address.wrapping_sub(walk.process.stack);
    let bytes = if big { word.to_be_bytes() } else { word.to_le_bytes() };
    let inside = usize::try_from(place).ok().and_then(|place| walk.stack.get_mut(place..)?.first_chunk_mut());
    if let Some(chunk) = inside {
        *chunk = bytes;
    }
}

pub(super) fn walk(random: &mut Random, functions: &[Function], big: bool) -> Walk {
    let (address, length) = window(random);
    let section = if random.once_in(16) { random.pick(&[0, 0x1000, u64::MAX - 0xffff]) } else { ADDRESS };
    let process = Process { section, stack: address, mask: mask(random) };
    let near = |random: &mut Random| near_stack(random, address, length);
    let first = random.pick(&[0, 0, 1, 1, 2, u64::MAX]);
    let registers = Registers {
        pc: if first == 0 { return_address(random, functions, section) } else { pc(random, functions, section) },
        sp: near(random),
        fp: near(random),
        lr: if random.once_in(2) { signed_or_not(random, functions, &process) } else { random.pick(&[0, 1, u64::MAX]) },
        first,
    };
    let mut stack = Vec::new();
    while stack.len() < length {
        let word = word(random, functions, &process, length);
        stack.extend(if big { word.to_be_bytes() } else { word.to_le_bytes() });
    }
    stack.truncate(length);
    let (limit, words) = room(random);
    Walk { process, registers, stack, limit, words }
}

// The usual ones, none, and some that take bits of the addresses too.
fn mask(random: &mut Random) -> u64 {
    match random.below(16) {
        0..=3 => 0,
        4 => u64::MAX,
        5 | 6 => 1 << random.below(64),
        7 => random.number(),
        _ => random.pick(&USUAL),
    }
}

// Some of the mask's bits.
fn signature(random: &mut Random, mask: u64) -> u64 {
    random.number() & mask
}

// Mostly in the middle of the addresses; at an end of them the window may be too long.
fn window(random: &mut Random) -> (u64, usize) {
    let length = match random.below(4) {
        0 if random.once_in(2) => random.index(33),
        1 => 8 * random.index(80),
        _ => 8 * (8 + random.index(40)),
    };
    let address = match random.below(12) {
        0 => random.pick(&[0, 0, 1, 8]),
        1 => 0_u64.wrapping_sub(length as u64).wrapping_add_signed(random.pick(&[0, 0, 1, -8])),
        2 => random.number(),
        _ => 0x7fff_0000,
    };
    (address, length)
}

// At the window's beginning, in it, at its end, at an end of the addresses, or anywhere.
fn near_stack(random: &mut Random, address: u64, length: usize) -> u64 {
    match random.below(16) {
        0 => random.number(),
        1 => random.pick(&[0, 8, u64::MAX, u64::MAX - 15]),
        2 => address.wrapping_add(length as u64).wrapping_sub(random.below(24)),
        3 => address.wrapping_add(8 * random.below(length as u64 / 8 + 1)),
        4 => address.wrapping_add(random.below(17)).wrapping_sub(8),
        _ => address.wrapping_add(16),
    }
}

// A PC at a row of a function or a little behind it, and now and then its last; seldom one of no function, or in one
// that has no row there.
fn pc(random: &mut Random, functions: &[Function], section: u64) -> u64 {
    let has_row = |function: &&Function| function.rows.iter().any(|row| row.start < function.size);
    let some: Vec<&Function> =
        if random.once_in(24) { functions.iter().collect() } else { functions.iter().filter(has_row).collect() };
    if some.is_empty() || random.once_in(40) {
        return random.pick(&[0, 1, u64::MAX, ADDRESS]).wrapping_add(random.below(3));
    }
    let function = random.pick(&some);
    let inside: Vec<u32> = function.rows.iter().map(|row| row.start).filter(|&start| start < function.size).collect();
    let start = if inside.is_empty() { 0 } else { random.pick(&inside) };
    let last = u64::from(function.size.saturating_sub(start + 1));
    let behind = if random.once_in(8) { last } else { random.below(2).min(last) };
    section.wrapping_add_signed(function.start).wrapping_add(u64::from(start) + behind)
}

// One behind such a PC, so that a later frame looks that PC up; where it was its function's last, this is behind the
// function. Now and then such a PC itself.
fn return_address(random: &mut Random, functions: &[Function], section: u64) -> u64 {
    pc(random, functions, section).wrapping_add(u64::from(!random.once_in(6)))
}

// Which row will read it is not known, so that half of them are signed where any row is, and else hardly one.
fn signed_or_not(random: &mut Random, functions: &[Function], process: &Process) -> u64 {
    let any_signed = functions.iter().any(|function| function.rows.iter().any(|row| row.signed));
    let is_signed = random.once_in(if any_signed { 2 } else { 24 });
    let signature = if is_signed { signature(random, process.mask) } else { 0 };
    return_address(random, functions, process.section) | signature
}

fn word(random: &mut Random, functions: &[Function], process: &Process, length: usize) -> u64 {
    match random.below(16) {
        0 => 0,
        1 => random.number(),
        2..=4 => near_stack(random, process.stack, length),
        _ => signed_or_not(random, functions, process),
    }
}

// The limit, and words for as many frames, one word fewer, or more; now and then a limit too high.
fn room(random: &mut Random) -> (u64, usize) {
    let limit = match random.below(16) {
        0 => random.pick(&[257, 258, 512, 1 << 32, 1 << 63, u64::MAX]),
        1 => random.pick(&[254, 255, 256]),
        2..=4 => 0,
        5..=9 => 1 + random.below(3),
        _ => 1 + random.below(20),
    };
    (limit, words_for(random, limit))
}

fn words_for(random: &mut Random, limit: u64) -> usize {
    let asked = match limit {
        0 => 384,
        1..=256 => 3 * limit as usize,
        _ => random.index(800),
    };
    match random.below(12) {
        0 => asked.saturating_sub(1 + random.index(3)),
        1 => asked + random.index(5),
        2 => random.index(asked + 1),
        _ => asked,
    }
}
