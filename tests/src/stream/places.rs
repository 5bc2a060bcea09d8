//! Places from which the next row is asked for: where rows stand, close to it, and numbers that no call gives.
#![forbid(unsafe_code)]

use super::Random;
use crate::reader::{rows_of, Header, RowsAt};

/// Places for any bytes. One has the numbers of a function, if there is any; in the others each number is one of those,
/// close to one, at an edge, or anything.
pub fn places(random: &mut Random, section: &[u8]) -> Vec<RowsAt> {
    let count = Header::read(section).map_or(0, |header| header.functions);
    let given = rows_of(section, random.below(u64::from(count).max(1)));
    let others: Vec<RowsAt> = (0..5).map(|_| altered(random, section, given)).collect();
    [given].into_iter().chain(others).collect()
}

fn altered(random: &mut Random, section: &[u8], given: RowsAt) -> RowsAt {
    RowsAt {
        abi: random.pick(&[given.abi, given.abi, 1, 2, 3, 0, 4, (1 << 32) + 1, u64::MAX]),
        row_type: random.pick(&[given.row_type, given.row_type, 0, 1, 2, 3, 15, 1 << 32, u64::MAX]),
        at: place(random, section.len() as u64, given.at),
        left: random.pick(&[given.left, 1, 2, 0, 1 << 32, u64::MAX]),
    }
}

// Often a row's own, often anywhere inside, and else outside, or inside where only some of its bits are looked at.
fn place(random: &mut Random, length: u64, given: u64) -> u64 {
    let (inside, anything) = (random.below(length.max(1)), random.number());
    match random.below(8) {
        0..=1 => given,
        2 => given.wrapping_add(random.below(9)).wrapping_sub(4),
        3..=4 => inside,
        5 => length.wrapping_add(random.below(9)).wrapping_sub(6),
        6 => inside + random.pick(&[1 << 32, 1 << 63]),
        _ => random.pick(&[0, u64::MAX, u64::MAX - 6, anything]),
    }
}

#[cfg(test)]
mod tests {
    use super::*;
    use crate::cases::S;
    use crate::reader::next_row;

    #[test]
    fn some_places_have_a_row_and_some_have_none() {
        let random = &mut Random::new(1);
        let places: Vec<RowsAt> = (0..100).flat_map(|_| places(random, &S)).collect();
        let with_row = places.iter().filter(|&&place| next_row(&S, place).row.is_some()).count();
        assert!((100..500).contains(&with_row), "{with_row} of {}", places.len());
    }

    #[test]
    fn any_bytes_have_places() {
        assert_eq!(places(&mut Random::new(1), &[]).len(), 6);
    }
}
