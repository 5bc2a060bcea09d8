//! Memory for all that a call is lent, each part between forbidden pages of its own.
#![forbid(unsafe_code)]

use crate::guarded::Guarded;

/// The longest section that is lent: above 2^32, so that a length of which only 32 bits are looked at shows.
const MOST_BYTES: usize = (1 << 32) + (1 << 20);
const MOST_OF_A_STACK: usize = 1 << 20;
const MOST_OF_WORDS: usize = 8_192;

pub struct Rooms {
    pub section: Guarded,
    pub stack: Guarded,
    pub words: Guarded,
}

impl Default for Rooms {
    fn default() -> Rooms {
        Rooms::of(Guarded::with_room)
    }
}

impl Rooms {
    /// Rooms that a program has too which is started from then on.
    pub fn shared() -> Rooms {
        Rooms::of(Guarded::shared)
    }

    fn of(room: fn(usize) -> Guarded) -> Rooms {
        Rooms { section: room(MOST_BYTES), stack: room(MOST_OF_A_STACK), words: room(MOST_OF_WORDS) }
    }

    /// In the order in which the parts are lent.
    pub fn all(&self) -> [&Guarded; 3] {
        [&self.section, &self.stack, &self.words]
    }
}
