//! Holds the library against the independent reader for as many generated sections as are asked for, and beside each of
//! them smaller ones, which are asked single addresses.
//!
//!     soak COUNT              from a seed of the clock, which is printed
//!     soak COUNT SEED         the same sections again
//!     soak COUNT SEED FROM    the same, beginning at a turn: where a difference was found
//!
//! Ends with a table of the calls compared; a difference ends it with the seed, the turn and status 1.

use std::process::ExitCode;
use std::sync::atomic::{AtomicU64, Ordering::Relaxed};
use std::sync::mpsc::{self, RecvTimeoutError};
use std::thread;
use std::time::{Duration, Instant, SystemTime, UNIX_EPOCH};
use suntimpani_tests::comparison::{
    compare_turns, in_parts, report, turn_of_this_thread, Comparison, Counts, Progress,
};
use suntimpani_tests::guarded;

const USAGE: &str = "usage: soak COUNT [SEED [FROM]], decimal numbers, COUNT above 0";
const BETWEEN_LINES: Duration = Duration::from_secs(5);
const TURNS_OF_A_PART: u64 = 500;

/// The seed, for what is said of a fault.
static SEED: AtomicU64 = AtomicU64::new(0);

/// Which turns of which seed.
struct Asked {
    count: u64,
    seed: u64,
    from: u64,
}

fn main() -> ExitCode {
    let Some(asked) = asked() else {
        eprintln!("{USAGE}");
        return ExitCode::FAILURE;
    };
    println!("soak: {} sections of seed {}, from turn {}", asked.count, asked.seed, asked.from);
    SEED.store(asked.seed, Relaxed);
    guarded::tell_faults_by(tell_fault);
    match soak(&asked) {
        Ok(counts) => {
            println!("{}", report(&counts, "the library"));
            ExitCode::SUCCESS
        }
        Err(difference) => {
            eprintln!("soak: {difference}");
            ExitCode::FAILURE
        }
    }
}

fn asked() -> Option<Asked> {
    let numbers: Result<Vec<u64>, _> = std::env::args().skip(1).map(|argument| argument.parse()).collect();
    let (count, seed, from) = match numbers.ok()?[..] {
        [count] => (count, seed_of_the_clock(), 0),
        [count, seed] => (count, seed, 0),
        [count, seed, from] => (count, seed, from),
        _ => return None,
    };
    (count > 0 && from.checked_add(count).is_some()).then_some(Asked { count, seed, from })
}

fn seed_of_the_clock() -> u64 {
    SystemTime::now().duration_since(UNIX_EPOCH).expect("the clock is past 1970").as_nanos() as u64
}

// In the thread that touched a forbidden page, which was inside a call: no lock is held there.
fn tell_fault() {
    let (seed, turn) = (SEED.load(Relaxed), turn_of_this_thread());
    eprintln!("soak: seed {seed}, turn {turn}: memory outside of what was lent was touched");
}

fn soak(asked: &Asked) -> Result<Counts, String> {
    let (progress, begin) = (Progress::default(), Instant::now());
    let (sender, receiver) = mpsc::channel();
    let end = asked.from + asked.count;
    thread::scope(|scope| {
        scope.spawn(|| {
            let sender = sender;
            let parts = asked.count.div_ceil(TURNS_OF_A_PART);
            let done = in_parts(parts, &progress, Comparison::default, |comparison, part| {
                let first = asked.from + part * TURNS_OF_A_PART;
                compare_turns(comparison, asked.seed, first..end.min(first.saturating_add(TURNS_OF_A_PART)))
            });
            // Nobody listens any more only where this program is already ending.
            let _ = sender.send(done);
        });
        loop {
            match receiver.recv_timeout(BETWEEN_LINES) {
                Ok(done) => return done,
                Err(RecvTimeoutError::Timeout) => tell_progress(asked, &progress, begin),
                Err(RecvTimeoutError::Disconnected) => return Err("a comparison ended without an answer".to_string()),
            }
        }
    })
}

fn tell_progress(asked: &Asked, progress: &Progress, begin: Instant) {
    let sections = (progress.parts.load(Relaxed) * TURNS_OF_A_PART).min(asked.count);
    let (calls, seconds) = (progress.calls.load(Relaxed), begin.elapsed().as_secs_f64());
    let left = seconds / sections.max(1) as f64 * (asked.count - sections) as f64;
    println!("soak: {sections} of {} sections, {calls} calls, about {left:.0} s left", asked.count);
}
