//! A trace: the frames of a whole walk, as document 01 has it under "A trace". The section is checked once. By request
//! 04 a signed RA is cleared before it is written and before it is held against 0; by request 06 limit 0 is 128 frames.
#![forbid(unsafe_code)]

use super::caller::{Process, Registers, Window};
use super::lookup::Checked;
use super::Refusal;

const MOST_FRAMES: u64 = 256;
/// As many frames as limit 0 allows.
pub const USUAL_FRAMES: u64 = 128;

/// CFA, RA and FP.
type Frame = [u64; 3];

/// Why a trace has no more frames.
#[derive(Clone, Copy, Debug, PartialEq, Eq)]
pub enum Ending {
    /// 30: RA was 0, cleared where it was signed.
    Outermost,
    /// 31: as many frames as the limit allows.
    Full,
    /// 21 to 28 by a refused step, and 41 to 43 before the first.
    Refused(u64),
    /// 1 to 15: the section is refused, with the entry's index.
    Unsound { number: u64, index: u64 },
}

impl Ending {
    /// Document 01's number.
    pub fn number(&self) -> u64 {
        match *self {
            Ending::Outermost => 30,
            Ending::Full => 31,
            Ending::Refused(number) | Ending::Unsound { number, .. } => number,
        }
    }
}

/// What a trace answers besides the words of the buffer.
#[derive(Clone, Copy, Debug, PartialEq, Eq)]
pub struct Traced {
    pub frames: u64,
    pub ending: Ending,
}

impl Traced {
    fn nothing(ending: Ending) -> Traced {
        Traced { frames: 0, ending }
    }
}

/// Walks from these registers and writes each frame to the buffer. Rules 41, 42, 43 and 1 to 15 are tried before
/// anything is written.
pub fn trace(
    section: &[u8],
    stack: &[u8],
    process: Process,
    registers: Registers,
    limit: u64,
    buffer: &mut [u64],
) -> Traced {
    let refused = |number| Traced::nothing(Ending::Refused(number));
    let Some(window) = Window::open(stack, process.stack) else { return refused(41) };
    if limit > MOST_FRAMES {
        return refused(42);
    }
    let limit = if limit == 0 { USUAL_FRAMES } else { limit };
    let Some(frames) = buffer.as_chunks_mut().0.get_mut(..limit as usize) else { return refused(43) };
    match Checked::open(section) {
        Ok(checked) => checked.walk(&window, &process, registers, frames),
        Err(Refusal { number, index }) => Traced::nothing(Ending::Unsound { number, index }),
    }
}

impl Checked<'_> {
    // As many frames as there is room for, unless something else ends the walk.
    fn walk(&self, window: &Window, process: &Process, registers: Registers, room: &mut [Frame]) -> Traced {
        // The mark is set whatever was handed in.
        let mut registers = Registers { first: 1, ..registers };
        for (frames, frame) in (0..).zip(room.iter_mut()) {
            registers = match self.caller(window, process, &registers) {
                Ok(caller) => caller,
                Err(number) => return Traced { frames, ending: Ending::Refused(number) },
            };
            *frame = [registers.sp, registers.pc, registers.fp];
            if registers.pc == 0 {
                return Traced { frames: frames + 1, ending: Ending::Outermost };
            }
        }
        Traced { frames: room.len() as u64, ending: Ending::Full }
    }
}
