//! One caller, and the whole trace.

use crate::calls;
use crate::refusal::{Refusal, Unsound};
use core::fmt::{self, Display, Formatter};

/// What is known of the process that crashed, which need not be this one, beside its registers. Each field may have any
/// value; on AMD64 the mask makes no difference.
///
/// Who has no mask leaves it 0:
///
/// ```
/// use suntimpani::Process;
///
/// let known = Process { section_address: 0x40_0000, stack_address: 0x7000, ..Process::default() };
/// assert_eq!(known.mask, 0);
/// ```
#[derive(Clone, Copy, Debug, Default, PartialEq, Eq)]
pub struct Process {
    /// The address of the section's first byte.
    pub section_address: u64,
    /// The address of the stack window's first byte, the lowest one.
    ///
    /// On AMD64 let the window begin 128 bytes below SP, with the red zone, or at the stack's lowest address where that
    /// is above: at the end of a function a row may place FP below SP. Let it end where the thread's stack does.
    pub stack_address: u64,
    /// AArch64: the bits of a return address that hold its signature. They are cleared where a row is signed. With 0,
    /// which says that they are not known, such a row is refused with 24.
    ///
    /// On Linux it is `insn_mask` of the register set or the note NT_ARM_PAC_MASK; for the own process every bit above
    /// those of a user's address will do, `0xffff_0000_0000_0000` where it has 48. Nothing tells that a mask is wrong.
    /// The header for C, `suntimpani.h`, says more.
    pub mask: u64,
}

/// Registers; each may have any value. On AMD64 they are RIP, RSP and RBP, and LR is not read.
#[derive(Clone, Copy, Debug, PartialEq, Eq)]
pub struct Registers {
    /// The program counter.
    pub pc: u64,
    /// The stack pointer.
    pub sp: u64,
    /// The frame pointer.
    pub fp: u64,
    /// The link register, X30 on AArch64.
    pub lr: u64,
    /// The first-frame mark: the registers are those of the crash.
    pub first: bool,
}

/// What [`Registers::step`] answers.
#[derive(Clone, Copy, Debug, PartialEq, Eq)]
pub enum Step {
    /// The caller's registers, without the mark.
    Caller(Registers),
    /// 1 to 15: the section is refused.
    Unsound {
        /// The registers that were handed in.
        old: Registers,
        /// What the section breaks.
        unsound: Unsound,
    },
    /// 21 to 28 or 41: there is no caller to be had.
    Refused {
        /// The registers that were handed in.
        old: Registers,
        /// Why.
        refusal: Refusal,
    },
}

/// What [`trace`] answers besides the words of the buffer.
#[derive(Clone, Copy, Debug, PartialEq, Eq)]
pub struct Traced {
    /// How many frames were written.
    pub frames: u64,
    /// Why there are no more.
    pub ending: Ending,
}

/// Why a trace ended.
#[derive(Clone, Copy, Debug, PartialEq, Eq)]
pub enum Ending {
    /// 30: the last frame's RA is 0, cleared of the mask's bits where it is signed: it is the outermost.
    Outermost,
    /// 31: the limit is full, and the last frame's RA is not 0.
    Full,
    /// 21 to 28, which the next step met; or 41 to 43, after which nothing is written.
    Refused(Refusal),
    /// 1 to 15: the section is refused, and nothing is written.
    Unsound(Unsound),
}

/// A frame of a trace.
#[derive(Clone, Copy, Debug, PartialEq, Eq)]
pub struct Frame {
    /// The canonical frame address: SP of the caller.
    pub cfa: u64,
    /// The return address as it was read, or where the row is signed with the mask's bits cleared: PC of the caller. It
    /// may be the first byte behind the function that called: [`lookup`](crate::lookup) finds that function at the
    /// return address minus 1, as the walk does.
    pub ra: u64,
    /// FP of the caller.
    pub fp: u64,
}

impl Registers {
    /// The caller's registers, or the same registers with a refusal. PC itself is looked up with the mark, and PC - 1
    /// without it: a return address stands behind its call, and where the call is the last instruction of its
    /// function, behind the function. Where the row is signed (AArch64), the mask's bits are cleared from the return
    /// address; LR stays as it is.
    ///
    /// ```
    /// use suntimpani::example::SECTION_S;
    /// use suntimpani::{Process, Registers, Step};
    ///
    /// let process = Process { section_address: 0x40_0000, stack_address: 0x7000, mask: 0 };
    /// let crash = Registers { pc: 0x40_1044, sp: 0x7000, fp: 0x7030, lr: 0, first: true };
    /// let stack = 0x40_1008_u64.to_le_bytes();
    /// let Step::Caller(caller) = crash.step(&SECTION_S, &stack, process) else { panic!("a caller") };
    /// assert_eq!((caller.pc, caller.sp, caller.fp), (0x40_1008, 0x7008, 0x7030));
    /// // The next frame's words lie above these eight bytes.
    /// assert_eq!(caller.step(&SECTION_S, &stack, process).number(), 28);
    ///
    /// // The first function of the section ends in a call: the return address is the first byte behind it, and the
    /// // caller's FP and return address lie where its own FP points to.
    /// let behind = Registers { pc: 0x40_1020, sp: 0x7000, fp: 0x7000, lr: 0, first: false };
    /// let stack = [0x7038_u64, 0x40_1044].map(u64::to_le_bytes);
    /// let Step::Caller(caller) = behind.step(&SECTION_S, stack.as_flattened(), process) else { panic!("a caller") };
    /// assert_eq!((caller.pc, caller.sp, caller.fp), (0x40_1044, 0x7010, 0x7038));
    /// // A crash there would be in no function.
    /// assert_eq!(Registers { first: true, ..behind }.step(&SECTION_S, stack.as_flattened(), process).number(), 21);
    /// ```
    pub fn step(self, section: &[u8], stack: &[u8], process: Process) -> Step {
        let said = calls::caller(section, stack, process.flat(), self.flat());
        match (said.number, Refusal::of(said.number)) {
            (0, _) => Step::Caller(Registers::of(&said.registers)),
            // By the library's contract: a step has neither a limit nor a buffer.
            (number @ (42 | 43), _) => unreachable!("{number} is for traces alone"),
            (_, Some(refusal)) => Step::Refused { old: self, refusal },
            (number, None) => Step::Unsound { old: self, unsound: Unsound::of(number, said.index) },
        }
    }

    fn flat(self) -> calls::Registers {
        let Registers { pc, sp, fp, lr, first } = self;
        calls::Registers { pc, sp, fp, lr, first: u64::from(first) }
    }

    fn of(flat: &calls::Registers) -> Registers {
        Registers { pc: flat.pc, sp: flat.sp, fp: flat.fp, lr: flat.lr, first: flat.first != 0 }
    }
}

impl Process {
    fn flat(self) -> calls::Process {
        calls::Process { section_address: self.section_address, stack_address: self.stack_address, mask: self.mask }
    }
}

impl Step {
    /// The number of the refusal, or 0 where there is a caller.
    ///
    /// ```
    /// use suntimpani::example::SECTION_S;
    /// use suntimpani::{Process, Registers};
    ///
    /// let process = Process { section_address: 0x40_0000, stack_address: 0x7000, mask: 0 };
    /// let crash = Registers { pc: 0x40_1044, sp: 0x7000, fp: 0x7030, lr: 0, first: true };
    /// assert_eq!(crash.step(&SECTION_S, &[0; 8], process).number(), 0);
    /// assert_eq!(crash.step(&SECTION_S, &[], process).number(), 28);
    /// ```
    pub fn number(self) -> u64 {
        match self {
            Step::Caller(_) => 0,
            Step::Unsound { unsound, .. } => unsound.number(),
            Step::Refused { refusal, .. } => refusal.number(),
        }
    }
}

/// How many frames [`trace`] may write where its limit is 0: the usual limit, and its name. Who passes it in place of 0
/// lends enough with [`USUAL_WORDS`], whatever 0 means in the archive that is linked.
pub const USUAL_LIMIT: u64 = 128;

/// How many words a buffer has for the usual limit.
pub const USUAL_WORDS: usize = 3 * USUAL_LIMIT as usize;

/// The whole trace from the registers of the crash, whatever their mark. Limit 0 means [`USUAL_LIMIT`], which is 128
/// (before version 0.5.0 it was 64); otherwise it is 1 to 256.
///
/// The buffer has at least 3 words for each frame of the limit: [`USUAL_WORDS`] for limit 0, 768 for 256. [`frames`]
/// reads it. Every word behind the frames that the answer counts keeps what it held.
///
/// A trace that is full is not gone on with by another, which would begin with the mark again. [`Registers::step`] goes
/// on, from PC, SP and FP as the last frame has them in RA, CFA and FP, LR of the crash, and no mark.
///
/// ```
/// use suntimpani::example::SECTION_S;
/// use suntimpani::{trace, Ending, Process, Refusal, Registers};
///
/// let process = Process { section_address: 0x40_0000, stack_address: 0x7000, mask: 0 };
/// let crash = Registers { pc: 0x40_1044, sp: 0x7000, fp: 0x7030, lr: 0, first: true };
/// let mut words = [9; 6];
/// let traced = trace(&SECTION_S, &[0; 64], process, crash, 2, &mut words);
/// assert_eq!((traced.frames, traced.ending), (1, Ending::Outermost));
/// assert_eq!(words, [0x7008, 0, 0x7030, 9, 9, 9]);
///
/// let traced = trace(&SECTION_S, &[0; 64], process, crash, 3, &mut words);
/// assert_eq!(traced.ending, Ending::Refused(Refusal::TooFewWords));
/// ```
pub fn trace(
    section: &[u8],
    stack: &[u8],
    process: Process,
    registers: Registers,
    limit: u64,
    buffer: &mut [u64],
) -> Traced {
    let said = calls::trace(section, stack, process.flat(), registers.flat(), limit, buffer);
    let ending = match (said.ending, Refusal::of(said.ending)) {
        (30, _) => Ending::Outermost,
        (31, _) => Ending::Full,
        (_, Some(refusal)) => Ending::Refused(refusal),
        (number, None) => Ending::Unsound(Unsound::of(number, said.index)),
    };
    Traced { frames: said.frames, ending }
}

/// The first frames of a buffer that [`trace`] wrote, innermost first, as many as it counted.
///
/// ```
/// use suntimpani::{frames, Frame};
///
/// let words = [0x7008, 0x40_1008, 0x7030, 0x7040, 0, 0, 9, 9, 9];
/// let all: Vec<Frame> = frames(&words, 2).collect();
/// assert_eq!(all[0], Frame { cfa: 0x7008, ra: 0x40_1008, fp: 0x7030 });
/// assert_eq!(all.len(), 2);
/// ```
pub fn frames(buffer: &[u64], count: u64) -> impl Iterator<Item = Frame> + '_ {
    let frame = |words: &[u64]| Frame { cfa: words[0], ra: words[1], fp: words[2] };
    // A count that no usize holds is more than any buffer has.
    buffer.chunks_exact(3).take(usize::try_from(count).unwrap_or(usize::MAX)).map(frame)
}

impl Ending {
    /// The ending's number.
    ///
    /// ```
    /// assert_eq!(suntimpani::Ending::Outermost.number(), 30);
    /// ```
    pub fn number(self) -> u64 {
        match self {
            Ending::Outermost => 30,
            Ending::Full => 31,
            Ending::Refused(refusal) => refusal.number(),
            Ending::Unsound(unsound) => unsound.number(),
        }
    }
}

impl Display for Ending {
    fn fmt(&self, out: &mut Formatter<'_>) -> fmt::Result {
        match self {
            Ending::Outermost => write!(out, "30, RA is 0: the outermost frame"),
            Ending::Full => write!(out, "31, the limit is full"),
            Ending::Refused(refusal) => write!(out, "{refusal}"),
            Ending::Unsound(unsound) => write!(out, "{unsound}"),
        }
    }
}
