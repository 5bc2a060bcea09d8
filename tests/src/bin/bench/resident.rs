//! A million asks in a section of the most bytes, from a mapped file: the time, and how much of it they bring into
//! memory.

use crate::ask::assert_alike;
use crate::mapped::Stored;
use crate::sections::{self, pcs_over, Largest};
use crate::table::{self, ResidentLine};
use crate::times::discard;
use std::time::Instant;
use suntimpani_tests::library::LIBRARY;
use suntimpani_tests::stream::Random;
use suntimpani_tests::timing::median;
use suntimpani_tests::ADDRESS;

const SEED: u64 = 20_260_105;
const ROUNDS: usize = 3;

/// What is resident is told after so many asks.
const TOLD_AFTER: [usize; 4] = [1, 100, 10_000, ASKS];
const ASKS: usize = 1_000_000;

/// So many addresses make up a profile in which they come again and again.
const HOT: usize = 1_000;

/// What was measured with one mapping: the nanoseconds of all asks from a file of which no page is in memory and again
/// from memory, and what was resident on the way.
struct Round {
    first: f64,
    again: f64,
    resident: [usize; TOLD_AFTER.len()],
}

pub fn print_lines() {
    table::print_resident_head();
    for largest in sections::of_most_bytes() {
        let mut stored = Stored::write(&largest.bytes).expect("a temporary file can be written");
        if stored.map().is_cached() {
            println!("The next file stays in the page cache: beside a page that is touched others count as resident.");
        }
        let hot = pcs_over(&largest.bytes, HOT);
        let mut random = Random::new(SEED);
        let drawn = (0..ASKS).map(|_| hot[random.below(HOT as u64) as usize]).collect();
        for (name, pcs) in [("all over", pcs_over(&largest.bytes, ASKS)), ("1,000 hot", drawn)] {
            assert_alike(&largest.name, &largest.bytes, &pcs);
            line(&largest, &mut stored, name, &pcs).print();
        }
    }
}

fn line(largest: &Largest, stored: &mut Stored, asked: &'static str, pcs: &[u64]) -> ResidentLine {
    let rounds: Vec<Round> = (0..ROUNDS).map(|_| round(stored, pcs)).collect();
    let of_rounds = |part: fn(&Round) -> f64| median(rounds.iter().map(part).collect());
    let mapped = stored.map();
    discard(LIBRARY.lookup(mapped.section(), ADDRESS, pcs[0]));
    let [one, hundred, ten_thousand, all] = rounds[0].resident;
    ResidentLine {
        section: largest.name.clone(),
        asked,
        asks: ASKS,
        first: of_rounds(|round| round.first),
        again: of_rounds(|round| round.again),
        resident: [one, hundred, ten_thousand, all, mapped.resident()],
    }
}

fn round(stored: &mut Stored, pcs: &[u64]) -> Round {
    let mapped = stored.map();
    let (mut first, mut asked) = (0.0, 0);
    let resident = TOLD_AFTER.map(|count| {
        first += time_of(mapped.section(), &pcs[asked..count]);
        asked = count;
        mapped.resident()
    });
    Round { first, again: time_of(mapped.section(), pcs), resident }
}

fn time_of(section: &[u8], pcs: &[u64]) -> f64 {
    let begin = Instant::now();
    pcs.iter().for_each(|pc| discard(LIBRARY.ask(section, ADDRESS, *pc)));
    begin.elapsed().as_nanos() as f64
}
