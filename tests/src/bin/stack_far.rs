//! How much stack the eight calls of the AArch64 archive use, as a program of that machine tells: each is made there on
//! a painted stack, beside an empty call of the same form. `SUNTIMPANI_FAR` says how the program is started.

// One of the benchmark's sections is taken.
#[allow(dead_code)]
#[path = "bench/sections.rs"]
mod sections;

use sections::{small_big_endian, MASK};
use std::process::ExitCode;
use suntimpani_tests::comparison::Call;
use suntimpani_tests::library::depths::measure;
use suntimpani_tests::library::far::{self, FAR, STARTED_BY};

fn main() -> ExitCode {
    if far::starting_words().is_none() {
        eprintln!("stack_far: {STARTED_BY} does not say how the program is started");
        return ExitCode::FAILURE;
    }
    let mut rooms = far::start();
    let most = measure(&FAR, &mut rooms, (small_big_endian(true), MASK), |run| far::depth_of(run));
    println!("{:<24} | {:>10} | {:>7}", "Stack of a call, AArch64", "Most bytes", "Calls");
    for call in Call::ALL {
        let (calls, bytes) = most[call as usize];
        println!("{:<24} | {bytes:>10} | {calls:>7}", call.name());
    }
    ExitCode::SUCCESS
}
