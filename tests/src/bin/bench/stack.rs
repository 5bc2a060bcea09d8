//! How much stack the eight calls use: each is made on a painted stack, beside an empty call of the same form.

use crate::sections::{small_big_endian, MASK};
use crate::table;
use std::hint::black_box;
use suntimpani_tests::comparison::Call;
use suntimpani_tests::library::depths::{measure, Run};
use suntimpani_tests::library::{empty::EMPTY, rooms::Rooms, LIBRARY};
use suntimpani_tests::painted::Painted;

pub fn print_lines() {
    let mut painted = Painted::default();
    let beside_empty = |run: Run| {
        let by_library = painted.depth_of(|| run(black_box(&LIBRARY)));
        let by_empty = painted.depth_of(|| run(black_box(&EMPTY)));
        by_library.saturating_sub(by_empty)
    };
    let most = measure(&LIBRARY, &mut Rooms::default(), (small_big_endian(true), MASK), beside_empty);
    for call in Call::ALL {
        let (calls, bytes) = most[call as usize];
        table::print_stack(call.name(), calls, bytes);
    }
}
