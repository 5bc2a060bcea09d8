//! Steps and traces straight from the definition, slowly: exact numbers, one rule after the other, a word byte by byte.
//!
//! Nothing is shared with the reader's own steps and traces but the types of the answers.

use super::{answer, described};
use crate::maker::{self, SORTED};
use crate::reader::{self, Base, Ending, Function, Outcome, Place, Process, Registers, Row, Step, Traced, Verdict};

const TWO_64: i128 = 1 << 64;

/// What a section means to a walk: its verdict and, where it is accepted, its functions.
#[derive(Clone, Debug)]
pub struct Meaning {
    pub verdict: Verdict,
    pub sorted: bool,
    /// Whether a word's highest byte comes first.
    pub big: bool,
    pub functions: Vec<Function>,
}

impl Meaning {
    /// By the section's bytes.
    pub fn read(section: &[u8]) -> Meaning {
        match reader::check(section) {
            Verdict::Accepted => Meaning {
                verdict: Verdict::Accepted,
                sorted: section[3] & SORTED != 0,
                big: section[0] == 0xde,
                functions: reader::functions(section),
            },
            Verdict::Refused { number, index } => Meaning::refused(number, index),
        }
    }

    /// By the description of a sound section, past the reader altogether.
    pub fn described(section: &maker::Section) -> Meaning {
        Meaning {
            verdict: Verdict::Accepted,
            sorted: section.flags & SORTED != 0,
            big: section.big,
            functions: described(section),
        }
    }

    /// Of a section that is refused so.
    pub fn refused(number: u64, index: u64) -> Meaning {
        let verdict = Verdict::Refused { number, index };
        Meaning { verdict, sorted: false, big: false, functions: Vec::new() }
    }
}

/// One step, by document 01's "One caller" and requests 03 and 04.
pub fn step(meaning: &Meaning, stack: &[u8], process: Process, registers: Registers) -> Step {
    let old = registers;
    if is_past_the_end(stack, process) {
        return Step::Refused { old, number: 41 };
    }
    if let Verdict::Refused { number, index } = meaning.verdict {
        return Step::Unsound { old, number, index };
    }
    match caller(meaning, stack, process, registers) {
        Ok(caller) => Step::Caller(caller),
        Err(number) => Step::Refused { old, number },
    }
}

// "41: stack address plus length above 2^64."
fn is_past_the_end(stack: &[u8], process: Process) -> bool {
    i128::from(process.stack) + stack.len() as i128 > TWO_64
}

fn caller(meaning: &Meaning, stack: &[u8], process: Process, registers: Registers) -> Result<Registers, u64> {
    let Registers { sp, fp, lr, first, .. } = registers;
    let has_mark = first != 0;
    // "21, 22, 23."
    let row = row_asked(meaning, process.section, registers)?;
    // "24: AArch64 and the row's signed bit is set", and this "now comes only when the mask is 0, in its old place".
    // The bit is never set in the meaning of an AMD64 row.
    if row.signed && process.mask == 0 {
        return Err(24);
    }
    // "CFA is base plus first offset. 25 when outside 0 to 2^64 - 1."
    let base = if row.base == Base::Sp { sp } else { fp };
    let cfa = i128::from(base) + i128::from(row.cfa_offset);
    if !(0..TWO_64).contains(&cfa) {
        return Err(25);
    }
    // "26: CFA below SP, or equal to SP without the first-frame mark."
    if cfa < i128::from(sp) || (cfa == i128::from(sp) && !has_mark) {
        return Err(26);
    }
    // "27: AArch64, count 1, without the mark": only there RA's place is a register.
    if row.ra == Place::Register && !has_mark {
        return Err(27);
    }
    // "28: a needed word (RA first) is not wholly inside the stack window."
    let word = |offset: i64| word_at(meaning.big, stack, process, cfa + i128::from(offset)).ok_or(28_u64);
    let ra = match row.ra {
        Place::Register => lr,
        Place::AtOffset(offset) => word(offset)?,
    };
    let new_fp = match row.fp {
        Place::Register => fp,
        Place::AtOffset(offset) => word(offset)?,
    };
    // "On AArch64, a row with the signed bit has the mask's bits cleared from RA, wherever RA came from; rows without
    // it leave RA as read."
    let ra = if row.signed { cleared(ra, process.mask) } else { ra };
    // "The caller has PC = RA, SP = CFA, the new FP, LR unchanged and no mark."
    Ok(Registers { pc: ra, sp: cfa as u64, fp: new_fp, lr, first: 0 })
}

// The bits that a word has and a mask has not, one after the other.
fn cleared(word: u64, mask: u64) -> u64 {
    let has = |bits: u64, number: u32| bits / 2_u64.pow(number) % 2 == 1;
    let kept = (0..64).filter(|&number| has(word, number) && !has(mask, number));
    kept.map(|number| 2_u64.pow(number)).sum()
}

// "without the first-frame mark, look up PC minus 1; with it, PC itself. .. PC 0 without the mark is answered 21 ..
// with no lookup made".
fn row_asked(meaning: &Meaning, address: u64, registers: Registers) -> Result<Row, u64> {
    match (registers.first, registers.pc) {
        (0, 0) => Err(21),
        (0, pc) => row_for(meaning, address, pc - 1),
        (_, pc) => row_for(meaning, address, pc),
    }
}

fn row_for(meaning: &Meaning, address: u64, pc: u64) -> Result<Row, u64> {
    match answer(meaning.sorted, &meaning.functions, address, pc).outcome {
        Outcome::Found { row, .. } => Ok(row),
        Outcome::NoFunction => Err(21),
        Outcome::Disputed { .. } => Err(22),
        Outcome::NoRow { .. } => Err(23),
        Outcome::SectionRefused { number, .. } => Err(number),
    }
}

// "Words are 8 bytes in the section's byte order"; none where one of them is not a byte of the window.
pub(super) fn word_at(big: bool, stack: &[u8], process: Process, address: i128) -> Option<u64> {
    let byte = |number: i128| {
        let place = address + number - i128::from(process.stack);
        let inside = 0 <= place && place < stack.len() as i128;
        inside.then(|| u64::from(stack[place as usize]))
    };
    let highest_first: Vec<i128> = if big { (0..8).collect() } else { (0..8).rev().collect() };
    highest_first.into_iter().try_fold(0, |word, number| Some(word * 256 + byte(number)?))
}

/// A trace, by document 01's "A trace".
pub fn trace(
    meaning: &Meaning,
    stack: &[u8],
    process: Process,
    registers: Registers,
    limit: u64,
    buffer: &mut [u64],
) -> Traced {
    let nothing = |ending| Traced { frames: 0, ending };
    // "otherwise 1 to 256", and by request 06 "Limit 0 should mean 128."
    let in_force = if limit == 0 { 128 } else { i128::from(limit) };
    // "Before anything else, in order: 41 .., 42 .., 43 ..; then 1 to 15."
    if is_past_the_end(stack, process) {
        return nothing(Ending::Refused(41));
    }
    if in_force > 256 {
        return nothing(Ending::Refused(42));
    }
    if (buffer.len() as i128) < 3 * in_force {
        return nothing(Ending::Refused(43));
    }
    if let Verdict::Refused { number, index } = meaning.verdict {
        return nothing(Ending::Unsound { number, index });
    }
    // "The walk starts with the mark set and writes each frame that a step yields."
    let (callers, ending) = callers(meaning, stack, process, Registers { first: 1, ..registers }, in_force as usize);
    let words = callers.iter().flat_map(|caller| [caller.sp, caller.pc, caller.fp]);
    buffer.iter_mut().zip(words).for_each(|(word, new)| *word = new);
    Traced { frames: callers.len() as u64, ending }
}

// The registers of every frame, each worked out from the last, and what ends them.
fn callers(
    meaning: &Meaning,
    stack: &[u8],
    process: Process,
    first: Registers,
    limit: usize,
) -> (Vec<Registers>, Ending) {
    let mut callers = Vec::new();
    loop {
        let last = callers.last().copied().unwrap_or(first);
        match step(meaning, stack, process, last) {
            Step::Caller(caller) => callers.push(caller),
            // "A refused step ends it with its own number, 21 to 28."
            refused => return (callers, Ending::Refused(refused.number())),
        }
        // "RA 0 ends it with 30 (outermost), also in the last allowed frame; otherwise a full limit ends it with 31."
        // By request 04 this "uses the cleared RA", which is the caller's PC.
        if callers[callers.len() - 1].pc == 0 {
            return (callers, Ending::Outermost);
        }
        if callers.len() == limit {
            return (callers, Ending::Full);
        }
    }
}
