//! A walk: what is lent to one step and one trace that begin at the same registers, and what the two come to.
#![forbid(unsafe_code)]

use crate::obvious::{self, Meaning};
use crate::reader::{self, Ending, Process, Registers, Step, Traced};

#[derive(Clone, Debug, PartialEq, Eq)]
pub struct Walk {
    pub process: Process,
    pub registers: Registers,
    pub stack: Vec<u8>,
    pub limit: u64,
    /// How many words the lent buffer has.
    pub words: usize,
}

/// What one step answers, what a trace answers, and the words that the trace leaves in the buffer.
#[derive(Clone, Debug, PartialEq, Eq)]
pub struct Walked {
    pub step: Step,
    pub traced: Traced,
    pub words: Vec<u64>,
}

/// What a buffer's word holds before a trace: no two the same, and none that a walk would write.
pub fn held(place: usize) -> u64 {
    0xa5a5_a5a5_a5a5_0000 + place as u64
}

/// A buffer of so many words as it is before a trace.
pub fn lent(words: usize) -> Vec<u64> {
    (0..words).map(held).collect()
}

impl Walk {
    pub fn by_reader(&self, section: &[u8]) -> Walked {
        let mut words = lent(self.words);
        let step = reader::step(section, &self.stack, self.process, self.registers);
        let traced = reader::trace(section, &self.stack, self.process, self.registers, self.limit, &mut words);
        Walked { step, traced, words }
    }

    pub fn by_definition(&self, meaning: &Meaning) -> Walked {
        let mut words = lent(self.words);
        let step = obvious::step(meaning, &self.stack, self.process, self.registers);
        let traced = obvious::trace(meaning, &self.stack, self.process, self.registers, self.limit, &mut words);
        Walked { step, traced, words }
    }

    /// What an author states of the walk: the step, the frames of the trace, and its ending.
    ///
    /// # Panics
    /// Where the buffer has no room for the frames.
    pub fn stated(&self, step: Step, frames: &[[u64; 3]], ending: Ending) -> Walked {
        let mut words = lent(self.words);
        words[..3 * frames.len()].copy_from_slice(frames.as_flattened());
        Walked { step, traced: Traced { frames: frames.len() as u64, ending }, words }
    }
}

impl Walked {
    /// The words of the frames that the trace counts.
    pub fn frames(&self) -> &[[u64; 3]] {
        &self.words.as_chunks().0[..self.traced.frames as usize]
    }

    /// How many words behind the frames are as they were before.
    pub fn kept(&self) -> usize {
        let behind = self.words.iter().enumerate().skip(3 * self.traced.frames as usize);
        behind.filter(|(place, word)| **word == held(*place)).count()
    }
}
