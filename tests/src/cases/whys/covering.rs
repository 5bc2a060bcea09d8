//! 22: how many functions cover a PC, and the first 16 of their indexes, whatever else stands between them.

use super::{section_of, Scene, Why};
use crate::cases::function_at;
use crate::reader::Unfound;

/// As many functions that cover one place as are told, a few less and a few more.
const COUNTS: [u64; 8] = [2, 3, 15, 16, 17, 18, 33, 40];

/// What stands between two that cover the place 8, by start and size: nothing of it covers 8.
const BETWEEN: [&[(i64, u32)]; 5] =
    [&[], &[(8, 0)], &[(0, 8), (9, 8)], &[(8, 0), (-0x20, 0x28), (9, 0x100)], &[(0x1000, 0x100)]];

pub fn all() -> Vec<Why> {
    let counts = COUNTS.into_iter().enumerate().flat_map(|(turn, count)| of_count(turn, count));
    let between = BETWEEN.iter().enumerate().flat_map(|(turn, between)| with_others(turn, between));
    counts.chain(between).chain(where_the_number_changes()).collect()
}

fn disputed(count: u64, first: impl Iterator<Item = u64>) -> Unfound {
    Unfound::Disputed { count, first: first.take(16).collect() }
}

// Functions that all cover 0 to 15, each longer than the one before, and some of them without rows.
fn of_count(turn: usize, count: u64) -> Vec<Why> {
    let function = |number: u64| {
        let starts: &[u32] = if number % 3 == 2 { &[] } else { &[0, 4] };
        function_at(1, -(number as i64), 16 + 2 * number as u32, starts)
    };
    let section = section_of(turn, false, (0..count).map(function).collect());
    let scene = Scene::of(format!("22_of_{count}"), &section);
    [0, 7, 15].into_iter().flat_map(|d| scene.unfound(d, turn, &disputed(count, 0..count))).collect()
}

// The functions that cover have the last index of each group, so that none of them has index 0 where others stand
// between.
fn with_others(turn: usize, between: &[(i64, u32)]) -> Vec<Why> {
    let group = between.len() as u64 + 1;
    let of_counts = [2, 16, 17].into_iter().flat_map(|count| {
        let places = (0..count).flat_map(|number| between.iter().copied().chain([(8 - number as i64 % 3, 3)]));
        let functions = places.map(|(start, size)| function_at(1, start, size, &[0])).collect();
        let section = section_of(turn, false, functions);
        let scene = Scene::of(format!("22_of_{count}_between_{turn}"), &section);
        let indexes = (0..count).map(|number| number * group + group - 1);
        scene.unfound(8, turn, &disputed(count, indexes))
    });
    of_counts.collect()
}

// One more covers from place to place, and then one less.
fn where_the_number_changes() -> Vec<Why> {
    let functions = [(0, 4), (4, 8), (1, 5), (5, 1), (2, 3)].map(|(start, size)| function_at(1, start, size, &[0]));
    let scene = Scene::of("22_changing", &section_of(1, false, functions.into()));
    let places: [(i128, &[u64]); 5] =
        [(1, &[0, 2]), (2, &[0, 2, 4]), (3, &[0, 2, 4]), (4, &[1, 2, 4]), (5, &[1, 2, 3])];
    let stated = |(d, covering): (i128, &[u64])| {
        scene.unfound(d, d as usize, &disputed(covering.len() as u64, covering.iter().copied()))
    };
    places.into_iter().flat_map(stated).collect()
}
