//! Indexes of functions to be asked for in a section: those that every case is asked, and others by chance.
#![forbid(unsafe_code)]

use super::Random;
use crate::cases;
use crate::reader::Header;

/// Indexes for any bytes. Beside those of a case there is one of a function, if the section has any, the same with a
/// high bit set, so that an index of which only some bits are looked at shows, and one that is anything.
pub fn indexes(random: &mut Random, section: &[u8]) -> Vec<u64> {
    let count = Header::read(section).map_or(0, |header| header.functions);
    let inside = random.below(u64::from(count).max(1));
    let by_chance = [inside, inside + (1 << 32), inside + (1 << 63), random.number()];
    cases::indexes(section).into_iter().chain(by_chance).collect()
}

#[cfg(test)]
mod tests {
    use super::*;
    use crate::cases::S;

    #[test]
    fn functions_and_what_lies_behind_them_are_asked_for() {
        let mut section = S;
        section[8] = 40;
        let indexes = indexes(&mut Random::new(1), &section);
        for index in [0, 1, 2, 39, 40, u64::MAX] {
            assert!(indexes.contains(&index), "{index}: {indexes:?}");
        }
        let [.., inside, above_32, above_63, _] = indexes[..] else { panic!("{indexes:?}") };
        assert!(inside < 40 && above_32 == inside + (1 << 32) && above_63 == inside + (1 << 63), "{indexes:?}");
    }

    #[test]
    fn any_bytes_are_asked() {
        assert!([0, u64::MAX].iter().all(|index| indexes(&mut Random::new(1), &[]).contains(index)));
    }
}
