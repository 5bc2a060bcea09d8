//! Holds the archive for AArch64 against the independent reader: a program of that machine makes the calls, on its own
//! processor or an emulated one, while the reader runs here. Skipped where `SUNTIMPANI_FAR` does not say how the
//! program is started, as tests/aarch64/compare does.

use std::ops::Range;
use std::os::unix::process::ExitStatusExt;
use suntimpani_tests::cases::{self, Case};
use suntimpani_tests::comparison::{compare_turns, in_parts, report, Comparison, Counts, Progress};
use suntimpani_tests::large;
use suntimpani_tests::library::far::{self, FAR, STARTED_BY};
use suntimpani_tests::library::{self, rooms::Rooms};
use suntimpani_tests::reader::{self, Process, Registers, RowsAt};

const SEED: u64 = 20_260_105;
const TURNS: u64 = 75_000;
const TURNS_OF_A_PART: usize = 100;

/// How many of the stored cases one thread compares before it takes others.
const CASES_OF_A_PART: usize = 20;

/// Each number that a call can answer with comes at least so often.
const ENOUGH: u64 = 50;

const ARCHIVE: &str = "the AArch64 archive";

/// K1, K2, K3, K8 and K9 of document 01 are cases by themselves. In the first of them K4 to K7 are looked up, at these
/// PCs, and K10 to K12 are its walks.
const OF_THE_DOCUMENT: [&str; 5] =
    ["K1_S", "K2_S_77_bytes", "K3_S_27_bytes", "K8_S_second_start_101f", "K9_S_second_start_101f_unsorted"];
const PCS_OF_S: [u64; 7] = [0x40_1003, 0x40_1004, 0x40_101f, 0x40_0fff, 0x40_1020, 0x40_103f, 0x40_1040];
const WALKS_OF_S: usize = 3;

enum Part<'a> {
    Stored(&'a [Case]),
    AtTheLimit(u64),
    Turns(Range<u64>),
}

// Whether there is a program to be started; that there is none is said.
fn is_far(test: &str) -> bool {
    let far = far::starting_words().is_some();
    if !far {
        println!("{test}: skipped, since {STARTED_BY} is not set");
    }
    far
}

fn compare_far(parts: &[Part]) -> Counts {
    let compare = |comparison: &mut Comparison, part: u64| match &parts[part as usize] {
        Part::Stored(cases) => cases.iter().try_for_each(|case| comparison.compare_case(case)),
        Part::AtTheLimit(number) => comparison.compare_case(&large::at_the_limit(*number)),
        Part::Turns(turns) => compare_turns(comparison, SEED, turns.clone()),
    };
    let compared = in_parts(parts.len() as u64, &Progress::default(), Comparison::far, compare);
    compared.unwrap_or_else(|difference| panic!("{difference}"))
}

// The stored cases with those of the corpus, the cases at the limit, and the turns of the stream.
#[test]
fn every_call_is_compared_far() {
    if !is_far("every_call_is_compared_far") {
        return;
    }
    let stored = cases::all();
    assert_has_the_document(&stored);
    let at_the_limit = (0..large::AT_THE_LIMIT_COUNT).map(Part::AtTheLimit);
    let begins = (0..TURNS).step_by(TURNS_OF_A_PART);
    let turns = begins.map(|begin| Part::Turns(begin..TURNS.min(begin + TURNS_OF_A_PART as u64)));
    let parts: Vec<Part> = at_the_limit.chain(stored.chunks(CASES_OF_A_PART).map(Part::Stored)).chain(turns).collect();
    let counts = compare_far(&parts);
    println!("{}", report(&counts, ARCHIVE));
    assert_eq!(counts.lacking(ENOUGH), Vec::<String>::new(), "come less than {ENOUGH} times, or never may");
}

#[test]
#[ignore = "a part of every_call_is_compared_far; tests/aarch64/slips runs it by itself"]
fn the_stored_cases_are_compared_far() {
    if !is_far("the_stored_cases_are_compared_far") {
        return;
    }
    let stored = cases::all();
    assert_has_the_document(&stored);
    let parts: Vec<Part> = stored.chunks(CASES_OF_A_PART).map(Part::Stored).collect();
    let counts = compare_far(&parts);
    println!("compared: {} calls of {ARCHIVE} in the stored cases, 0 differences", counts.calls());
}

// K1 to K12 are among the cases.
fn assert_has_the_document(stored: &[Case]) {
    let named =
        |name: &str| stored.iter().find(|case| case.name == name).unwrap_or_else(|| panic!("{name} is missing"));
    let [s, ..] = OF_THE_DOCUMENT.map(named);
    for pc in PCS_OF_S {
        assert!(s.questions.iter().any(|question| question.pc == pc), "PC {pc:x} is missing");
    }
    assert_eq!(s.walks.len(), WALKS_OF_S);
}

// What is lent without a length lies in no room, and the program passes a null pointer.
#[test]
fn nothing_may_be_lent_by_null_far() {
    if !is_far("nothing_may_be_lent_by_null_far") {
        return;
    }
    let _rooms = far::start();
    let process = Process { section: 0, stack: 0, mask: 0 };
    let registers = Registers { pc: 1, sp: 2, fp: 3, lr: 4, first: 1 };
    let place = RowsAt { abi: 3, row_type: 0, at: 0, left: 1 };
    assert_eq!(FAR.check(&[]), reader::check(&[]));
    assert_eq!(FAR.function_at(&[], 0), library::Function::of(&reader::function_at(&[], 0)));
    assert_eq!(FAR.rows_of(&[], 0), library::Rows::of(&reader::rows_of(&[], 0)));
    assert_eq!(FAR.next_row(&[], library::Rows::of(&place)), library::Row::of(&reader::next_row(&[], place)));
    assert_eq!(FAR.lookup(&[], 0, 1), library::Answer::of(&reader::lookup(&[], 0, 1)));
    assert_eq!(FAR.ask(&[], 0, 1), library::Answer::of_asked(&reader::ask(&[], 0, 1)));
    let step = reader::step(&[], &[], process, registers);
    assert_eq!(FAR.step(&[], &[], process, registers), library::Step::of(&step));
    let traced = reader::trace(&[], &[], process, registers, 0, &mut []);
    assert_eq!(FAR.trace(&[], &[], process, registers, 0, &mut []), library::Traced::of(&traced));
}

// The forbidden pages are those of the program, which reads or writes one byte too far, and must be killed for it. The
// bytes beside it, inside, it may touch.
#[test]
fn what_is_done_outside_is_noticed_far() {
    if !is_far("what_is_done_outside_is_noticed_far") {
        return;
    }
    for room in 0..3 {
        for write in [false, true] {
            for front in [false, true] {
                let length = length_of(&far::start_silent(), room);
                let (inside, outside) = if front { (0, -1) } else { (length - 1, length) };
                let what = format!("room {room}, place {outside}, written: {write}");
                far::touch(room, inside, write).unwrap_or_else(|ended| panic!("{what}: {ended} inside"));
                let ended = far::touch(room, outside, write).expect_err(&what);
                let killed = [Some(7), Some(11)].contains(&ended.signal());
                assert!(killed, "{what}: {ended}, where SIGSEGV or SIGBUS was expected");
            }
        }
    }
}

fn length_of(rooms: &Rooms, room: u64) -> isize {
    rooms.all()[room as usize].addresses().len() as isize
}
