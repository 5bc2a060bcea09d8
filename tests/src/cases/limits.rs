//! Walks by the limit and the lent buffer: 30, 31, 42, 43, what is counted as a frame, the order of 41, 42 and 43, and
//! what limit 0 stands for.

use super::walks::{at, from_sp, pc_in, shared_out, Expected, Ground};
use super::Case;
use crate::maker::Machine;
use Last::{Called, Outermost};

pub fn all() -> Vec<Case> {
    let both = Machine::ALL.into_iter().flat_map(|machine| [short(machine), long(machine)]);
    both.chain([in_order(Machine::Amd64), in_order(Machine::Aarch64Big)]).collect()
}

/// Whether RA is 0 in the last frame that the stack holds.
#[derive(Clone, Copy, PartialEq)]
enum Last {
    Outermost,
    Called,
}

fn ground(machine: Machine) -> Ground {
    Ground::of_rows(machine, vec![from_sp(machine, 8, None)])
}

/// Frames of the stack, its last RA, the limit and the words.
type Recursion = (usize, Last, u64, usize);

// A function that calls itself, 8 bytes a frame.
fn recursion(ground: &Ground, (frames, last, limit, words): Recursion) -> Expected {
    let mut stack = vec![pc_in(0); frames];
    if let (Outermost, Some(ra)) = (last, stack.last_mut()) {
        *ra = 0;
    }
    ground.walk_with(at(pc_in(0), 0x7000, 0xf0f0), ground.words(0x7000, &stack), limit, words)
}

const SHORT: [Recursion; 44] = [
    // RA 0 in the last allowed frame, one frame before it, one behind it; no RA 0 at all.
    (1, Outermost, 1, 3),
    (2, Outermost, 1, 3),
    (1, Called, 1, 3),
    (0, Called, 1, 3),
    (1, Outermost, 2, 6),
    (2, Outermost, 2, 6),
    (3, Outermost, 2, 6),
    (1, Called, 2, 6),
    (2, Called, 2, 6),
    (2, Outermost, 3, 9),
    (3, Outermost, 3, 9),
    (4, Outermost, 3, 9),
    // Words: none, one short, exact, more; under limit 0 what 64 frames ask for, and more than it asks for itself.
    (2, Outermost, 1, 0),
    (2, Outermost, 1, 1),
    (2, Outermost, 1, 2),
    (2, Outermost, 1, 4),
    (3, Outermost, 2, 0),
    (3, Outermost, 2, 3),
    (3, Outermost, 2, 5),
    (3, Outermost, 2, 7),
    (3, Outermost, 2, 40),
    (2, Outermost, 0, 0),
    (2, Outermost, 0, 3),
    (2, Outermost, 0, 191),
    (2, Outermost, 0, 192),
    (2, Outermost, 0, 193),
    (2, Outermost, 0, 768),
    (2, Outermost, 64, 191),
    (2, Outermost, 64, 192),
    (2, Outermost, 255, 764),
    (2, Outermost, 255, 765),
    (2, Outermost, 256, 767),
    (2, Outermost, 256, 768),
    (2, Outermost, 256, 1000),
    // Limits above 256, with words for none, for all, and for what some bits of the limit would ask.
    (2, Outermost, 257, 0),
    (2, Outermost, 257, 770),
    (2, Outermost, 257, 1000),
    (2, Outermost, 512, 1000),
    (2, Outermost, 1 << 16, 1000),
    (2, Outermost, 1 << 32, 1000),
    (2, Outermost, (1 << 32) + 2, 6),
    (2, Outermost, 1 << 63, 1000),
    (2, Outermost, 0x5555_5555_5555_5556, 2),
    (2, Outermost, u64::MAX, 1000),
];

fn short(machine: Machine) -> Case {
    let ground = ground(machine);
    let walks = SHORT.map(|one| recursion(&ground, one));
    ground.case("limits", shared_out(machine, walks.into()))
}

// The longest traces, one machine having what another has not: each is many lines of what is expected.
fn long(machine: Machine) -> Case {
    let ground = ground(machine);
    let traces: &[Recursion] = match machine {
        Machine::Amd64 => &[(64, Outermost, 64, 192), (257, Outermost, 256, 768)],
        Machine::Aarch64 => &[(65, Outermost, 64, 193), (256, Outermost, 256, 769)],
        Machine::Aarch64Big => &[(64, Called, 64, 192)],
    };
    let walks = traces.iter().map(|&one| recursion(&ground, one));
    ground.case("long", walks.collect())
}

/// Walks around the limit that 0 stands for, which 128 is too, by words and by frames.
pub fn usual() -> Vec<Case> {
    let of = |machine| {
        let ground = ground(machine);
        let walks = TOO_FEW_WORDS.into_iter().chain(around_the_usual(machine)).map(|one| recursion(&ground, one));
        ground.case("usual_limit", walks.collect())
    };
    Machine::ALL.map(of).into()
}

// A word too few, and what an older build lends.
const TOO_FEW_WORDS: [Recursion; 5] = [
    (129, Outermost, 0, 192),
    (127, Outermost, 0, 383),
    (128, Outermost, 0, 383),
    (129, Outermost, 0, 383),
    (129, Outermost, 128, 383),
];

// Long ones again, of which each machine has some.
fn around_the_usual(machine: Machine) -> [Recursion; 3] {
    match machine {
        Machine::Amd64 => [(127, Outermost, 0, 384), (128, Outermost, 0, 384), (129, Outermost, 0, 384)],
        Machine::Aarch64 => [(127, Outermost, 0, 385), (128, Outermost, 0, 385), (129, Outermost, 0, 385)],
        Machine::Aarch64Big => [(127, Called, 0, 384), (128, Called, 0, 384), (129, Outermost, 128, 384)],
    }
}

// 41 before 42 before 43, and all of them before the first step, which here is refused too: nothing covers the PC.
fn in_order(machine: Machine) -> Case {
    let ground = ground(machine);
    let walk = |length, limit, words| ground.walk_with(at(1, 0x7000, 0), (u64::MAX - 7, vec![0; length]), limit, words);
    let walks = vec![
        walk(8, 2, 6),
        walk(9, 2, 6),
        walk(9, 257, 1000),
        walk(9, 2, 5),
        walk(9, 257, 0),
        walk(8, 257, 0),
        walk(8, 2, 5),
        walk(8, 0, 0),
    ];
    ground.case("limits_in_order", walks)
}

#[cfg(test)]
mod tests {
    use super::*;
    use crate::reader::{Ending, Traced, USUAL_FRAMES};

    fn comes_to(walks: &[Expected]) -> Vec<(u64, u64)> {
        let one = |(_, walked): &Expected| (walked.traced.frames, walked.traced.ending.number());
        walks.iter().map(one).collect()
    }

    #[test]
    fn the_usual_limit_is_walked_as_stated() {
        let too_few = [(0, 43); 5];
        let long =
            [[(127, 30), (128, 30), (128, 31)], [(127, 30), (128, 30), (128, 31)], [(127, 28), (128, 31), (128, 31)]];
        for (case, long) in usual().iter().zip(long) {
            assert_eq!(comes_to(&case.walks), [&too_few[..], &long].concat(), "{}", case.name);
        }
    }

    // Whatever is lent, both limits leave the same words, frame count and ending.
    #[test]
    fn limit_0_is_as_128() {
        assert_eq!(USUAL_FRAMES, 128);
        let ground = ground(Machine::Amd64);
        for (frames, words) in [(127, 384), (128, 384), (129, 385), (129, 383), (129, 192), (200, 768), (0, 0)] {
            let [zero, usual] = [0, 128].map(|limit| recursion(&ground, (frames, Outermost, limit, words)).1);
            assert_eq!(zero, usual, "{frames} frames, {words} words");
        }
        let deep = recursion(&ground, (200, Outermost, 0, 768)).1;
        assert_eq!((deep.traced, deep.kept()), (Traced { frames: 128, ending: Ending::Full }, 384));
    }
}
