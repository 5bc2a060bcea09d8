//! Turns: a section each, and all that is asked of it. A turn is found again by the seed and its own number.
#![forbid(unsafe_code)]

use super::{indexes, places, questions, section, walkable, walks, Random};
use crate::reader::{next_row, RowsAt};
use crate::walk::Walk;

/// The most bytes that document 01 allows a section.
const MOST_BYTES: usize = 16_777_216;

/// A section, and the functions and rows to be asked for, the lookups and the walks to be made in it.
#[derive(Clone, Debug, PartialEq, Eq)]
pub struct Turn {
    pub section: Vec<u8>,
    /// How many bytes are lent: the section's own, or more, where it is too long for what follows to matter.
    pub length: usize,
    /// An address and a PC each.
    pub questions: Vec<(u64, u64)>,
    pub walks: Vec<Walk>,
    /// Of functions.
    pub indexes: Vec<u64>,
    /// From which a row is asked for.
    pub places: Vec<RowsAt>,
}

/// The turn of that number: every fifth one with walks, two thirds of those in a section made to be walked in, and one
/// in 2,500 with a section that is too long.
pub fn turn(seed: u64, number: u64) -> Turn {
    let random = &mut random_of(seed, number);
    let section = if [0, 5].contains(&(number % 15)) { walkable(random) } else { section(random) };
    if number % 2_500 == 1 {
        return too_long(random, section);
    }
    let walks = if number.is_multiple_of(5) { walks(random, &section) } else { Vec::new() };
    let questions = questions(random, &section);
    let (indexes, places) = (indexes(random, &section), places(random, &section));
    Turn { length: section.len(), questions, walks, indexes, places, section }
}

// Turns of one seed share nothing with those of the next.
pub(super) fn random_of(seed: u64, number: u64) -> Random {
    let of_seed = Random::new(seed).number();
    Random::new(Random::new(of_seed ^ number).number())
}

// One byte too many and a few more, and lengths that lie about themselves where only 32 bits of them are looked at.
fn too_long(random: &mut Random, section: Vec<u8>) -> Turn {
    let lengths = [MOST_BYTES + 1, MOST_BYTES + 2, 2 * MOST_BYTES, (1 << 32) - 1, 1 << 32, (1 << 32) + section.len()];
    let length = random.pick(&lengths);
    // What is asked is what a refused section is asked: its length alone decides.
    let (questions, walks) = (questions(random, &[]), walks(random, &[]));
    let (indexes, mut places) = (indexes(random, &section), places(random, &section));
    // A row is told also where the section is too long; behind the section's own bytes anything may stand.
    places.retain(|&place| next_row(&section, place).row.is_some());
    Turn { length, questions, walks, indexes, places, section }
}

#[cfg(test)]
mod tests {
    use super::*;

    #[test]
    fn a_turn_is_found_again_by_its_number() {
        for number in [0, 1, 5, 7, 2_501] {
            assert_eq!(turn(3, number), turn(3, number));
            assert_ne!(turn(3, number), turn(4, number));
            assert_ne!(turn(3, number), turn(3, number + 15));
        }
    }

    #[test]
    fn turns_differ_in_what_is_asked() {
        let turns: Vec<Turn> = (0..15).map(|number| turn(3, number)).collect();
        let long = turns.iter().filter(|turn| turn.length > MOST_BYTES).count();
        let walked = turns.iter().filter(|turn| !turn.walks.is_empty()).count();
        assert_eq!((long, walked), (1, 4));
        assert!(turns.iter().all(|turn| turn.length >= turn.section.len() && !turn.questions.is_empty()));
        assert!(turns.iter().all(|turn| turn.indexes.len() >= 10));
    }
}
