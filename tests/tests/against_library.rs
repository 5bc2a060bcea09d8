//! Holds the library against the independent reader, checks, functions by their indexes, rows, lookups, single
//! addresses asked, steps and traces: the stored cases, the large ones, and a seeded stream; and tries the forbidden
//! pages that everything lent lies against.

use std::os::unix::process::ExitStatusExt;
use std::process::Command;
use suntimpani_tests::cases;
use suntimpani_tests::comparison::{compare_turns, in_parts, report, Comparison, Progress};
use suntimpani_tests::guarded::{Guarded, Side};
use suntimpani_tests::large;
use suntimpani_tests::stream::ASKED_OF_A_TURN;

const SEED: u64 = 20_260_101;
const TURNS: u64 = 300_000;
const TURNS_OF_A_PART: u64 = 1_000;

/// At least so many sections are asked single addresses, and so many of their twins are told apart by a lookup.
const ASKED: u64 = 1_000_000;
const TOLD_APART: u64 = 100_000;

/// Each number that a call can answer with comes at least so often.
const ENOUGH: u64 = 100;

// The stored cases with those of the corpus, the cases at the limit, and the turns of the stream.
#[test]
fn every_call_is_compared() {
    let stored = cases::all();
    let parts = 1 + large::AT_THE_LIMIT_COUNT + TURNS.div_ceil(TURNS_OF_A_PART);
    let compare = |comparison: &mut Comparison, part: u64| match part {
        0 => stored.iter().try_for_each(|case| comparison.compare_case(case)),
        part @ 1..=large::AT_THE_LIMIT_COUNT => comparison.compare_case(&large::at_the_limit(part - 1)),
        part => {
            let begin = (part - 1 - large::AT_THE_LIMIT_COUNT) * TURNS_OF_A_PART;
            compare_turns(comparison, SEED, begin..TURNS.min(begin + TURNS_OF_A_PART))
        }
    };
    let counts = in_parts(parts, &Progress::default(), Comparison::default, compare)
        .unwrap_or_else(|difference| panic!("{difference}"));
    println!("{}", report(&counts, "the library"));
    assert!(counts.calls() >= 200_000);
    assert!(TURNS * ASKED_OF_A_TURN >= ASKED && counts.told_apart >= TOLD_APART, "{} told apart", counts.told_apart);
    assert_eq!(counts.lacking(ENOUGH), Vec::<String>::new(), "come less than {ENOUGH} times, or never may");
}

#[test]
#[ignore = "reads 2^32 rows three times: run it by itself, in a release build"]
fn a_sum_of_2_32() {
    Comparison::default().compare_case(&large::sum_of_2_32()).unwrap_or_else(|difference| panic!("{difference}"));
}

// The forbidden pages are what makes the comparison one of memory too, so they are tried: another process of this
// test reads or writes one byte or word too far, and must be killed for it.
#[test]
fn what_is_done_outside_is_noticed() {
    for (test, side) in
        [("reads_outside", "front"), ("reads_outside", "end"), ("writes_outside", "front"), ("writes_outside", "end")]
    {
        let this = std::env::current_exe().expect("the test's own file");
        let mut child = Command::new(this);
        child.args(["--exact", test, "--ignored"]).env("SIDE_TO_LEAVE", side);
        let ended = child.output().expect("the test can be started again").status;
        let killed = [Some(7), Some(11)].contains(&ended.signal());
        assert!(killed, "{test}, {side}: {ended}, where SIGSEGV or SIGBUS was expected");
    }
}

#[test]
#[ignore = "ends its process; started by what_is_done_outside_is_noticed"]
fn writes_outside() {
    let mut room = Guarded::with_room(24);
    let outside = match std::env::var("SIDE_TO_LEAVE").as_deref() {
        Ok("front") => room.words_at(Side::Front, &[1, 2, 3]).as_mut_ptr().wrapping_sub(1),
        Ok("end") => room.words_at(Side::End, &[1, 2, 3]).as_mut_ptr().wrapping_add(3),
        _ => return,
    };
    // SAFETY: none: the address is forbidden, and this process ends here.
    unsafe { outside.write_volatile(4) };
}

#[test]
#[ignore = "ends its process; started by what_is_done_outside_is_noticed"]
fn reads_outside() {
    let mut room = Guarded::with_room(3);
    let outside = match std::env::var("SIDE_TO_LEAVE").as_deref() {
        Ok("front") => room.bytes_at(Side::Front, &[1, 2, 3]).as_ptr().wrapping_sub(1),
        Ok("end") => room.bytes_at(Side::End, &[1, 2, 3]).as_ptr().wrapping_add(3),
        _ => return,
    };
    // SAFETY: none: the address is forbidden, and this process ends here.
    println!("{}", unsafe { outside.read_volatile() });
}
