//! Lays a stack for a long walk through a section: frames spread over its functions, as a compiled program leaves them.
#![forbid(unsafe_code)]

use crate::reader::{functions, Base, Header, Order, Place, Process, Registers, Row};
use crate::stream::Random;
use crate::walk::Walk;
use crate::ADDRESS;

/// Where the stack begins.
const BEGIN: u64 = 0x7fff_0000_0000;

/// A walk of so many frames to an outermost one, from function to function by a seed; no row of it is signed.
///
/// # Panics
/// Where the section is refused, or has no row from SP that saves its words in a frame of its own.
pub fn through(section: &[u8], frames: usize, seed: u64) -> Walk {
    through_signed(section, frames, seed, 0)
}

/// The same where rows may be signed, unless the mask is 0: their return addresses have some of the mask's bits set.
///
/// # Panics
/// Where the other does.
pub fn through_signed(section: &[u8], frames: usize, seed: u64, mask: u64) -> Walk {
    if_usable(section, frames, seed, mask).expect("a row that can be laid out")
}

/// The same, or none where no row of the section can be laid out.
pub fn if_usable(section: &[u8], frames: usize, seed: u64, mask: u64) -> Option<Walk> {
    let places = usable(section, mask != 0);
    if places.is_empty() {
        return None;
    }
    let mut random = Random::new(seed);
    let chain = Vec::from_iter((0..frames).map(|_| places[random.below(places.len() as u64) as usize]));
    // A return address is one behind the PC that is looked up for it; behind the last frame's function there is none.
    let returns = chain[1..].iter().map(|(pc, _)| pc + 1).chain([0]);
    let mut words = Vec::new();
    for ((_, row), ra) in chain.iter().zip(returns) {
        let signature = if row.signed { random.number() & mask } else { 0 };
        words.extend(frame(row, ra | signature, BEGIN + 8 * words.len() as u64));
    }
    let big = Header::read(section).is_some_and(|header| header.order == Order::Big);
    let stack = words.iter().flat_map(|word: &u64| if big { word.to_be_bytes() } else { word.to_le_bytes() }).collect();
    let registers = Registers { pc: chain[0].0, sp: BEGIN, fp: BEGIN, lr: 0, first: 1 };
    let process = Process { section: ADDRESS, stack: BEGIN, mask };
    Some(Walk { process, registers, stack, limit: frames as u64, words: 3 * frames })
}

// The PCs at which rows begin that can be laid out, with the row of each.
fn usable(section: &[u8], signed_too: bool) -> Vec<(u64, Row)> {
    let mut places = Vec::new();
    for function in functions(section) {
        let fits = |row: &&Row| row.start < function.size && (signed_too || !row.signed) && fits(row);
        let inside = function.rows.iter().filter(fits);
        places.extend(inside.map(|row| (ADDRESS.wrapping_add_signed(function.start) + u64::from(row.start), *row)));
    }
    places
}

// From SP, a frame of 8 to 512 bytes, and its words saved in it.
fn fits(row: &Row) -> bool {
    let frame = row.cfa_offset;
    let in_frame =
        |place| matches!(place, Place::AtOffset(offset) if -frame <= offset && offset <= -8 && offset % 8 == 0);
    let whole = (8..=512).contains(&frame) && frame % 8 == 0;
    row.base == Base::Sp && whole && in_frame(row.ra) && (row.fp == Place::Register || in_frame(row.fp))
}

// The words of one frame: RA and FP at their places, and elsewhere 0.
fn frame(row: &Row, ra: u64, sp: u64) -> Vec<u64> {
    let mut words = vec![0; row.cfa_offset as usize / 8];
    let place = |offset: i64| ((row.cfa_offset + offset) / 8) as usize;
    if let Place::AtOffset(offset) = row.fp {
        words[place(offset)] = sp;
    }
    if let Place::AtOffset(offset) = row.ra {
        words[place(offset)] = ra;
    }
    words
}

#[cfg(test)]
mod tests {
    use super::*;
    use crate::cases::corpus_section;
    use crate::maker::{self, Function, Machine, Section};
    use crate::obvious::Meaning;
    use crate::reader::{Ending, Traced};

    #[test]
    fn a_laid_walk_is_as_long_as_asked() {
        let section = corpus_section("gas_exe");
        let walk = through(&section, 64, 1);
        let walked = walk.by_definition(&Meaning::read(&section));
        assert_eq!(walked.traced, Traced { frames: 64, ending: Ending::Outermost });
        assert_eq!(walk.by_reader(&section), walked);
        // Hardly a frame has the function of another.
        let mut callers: Vec<u64> = walked.frames().iter().map(|[_, ra, _]| *ra).collect();
        callers.sort();
        callers.dedup();
        assert!(callers.len() > 60, "{} callers", callers.len());
    }
    #[test]
    fn a_laid_walk_goes_through_signed_rows() {
        let mut section = Section::new(Machine::Aarch64);
        let row = |start, signed| maker::Row { signed, ..maker::Row::new(start, 0, &[16, -8, -16]) };
        section.functions = vec![Function::new(0x1000, 64, 0, vec![row(0, false), row(8, true), row(16, true)])];
        let (section, mask) = (section.bytes(), 0x007f_0000_0000_0000);
        let walk = through_signed(&section, 64, 1, mask);
        let walked = walk.by_definition(&Meaning::read(&section));
        assert_eq!(walked.traced, Traced { frames: 64, ending: Ending::Outermost });
        let signed = walk.stack.chunks(16).filter(|frame| frame[14] != 0).count();
        assert!((32..64).contains(&signed), "{signed} of 64 return addresses are signed");
        assert_eq!(through(&section, 64, 1).by_reader(&section).traced.frames, 64);
    }
}
