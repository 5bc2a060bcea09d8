//! That the library reads only what the request to ask one address names: it is asked of sections of the most bytes, of
//! which every page is forbidden that has none of the bytes named for the question, and answers as the reader does.

use std::io::{self, Write};
use std::ops::Range;
use std::os::unix::process::ExitStatusExt;
use std::process::Command;
use suntimpani_tests::guarded::{self, page_size, Guarded, Side};
use suntimpani_tests::large::{functions_of_many_rows, many_functions, STEP_OF_MANY};
use suntimpani_tests::library::{self, LIBRARY};
use suntimpani_tests::maker::{FirstRow, Section};
use suntimpani_tests::reader::{ask, check, named_bytes, Verdict};
use suntimpani_tests::stream::Random;
use suntimpani_tests::ADDRESS;

const MOST_BYTES: usize = 16_777_216;
const MOST_FUNCTIONS: usize = 838_859;

/// The function that is damaged where one is.
const DAMAGED: usize = 419_000;

/// Where the functions of `many_functions` begin, and how far apart.
const FIRST: i64 = -0x4000_0000;
const STEP: i64 = 32;

/// How many places are asked by chance of each section.
const BY_CHANCE: usize = 60;
const SEED: u64 = 20_260_106;

type Edit = fn(&mut Section);

/// The most functions in the most bytes, and what asking answers in the function that is damaged, in the first and the
/// last one, and behind them all.
const OF_FUNCTIONS: [(&str, Verdict, Edit, [u64; 4]); 8] = [
    ("sound", Verdict::Accepted, |_| (), [0, 0, 0, 21]),
    ("9", refused(9, DAMAGED), |s| s.functions[DAMAGED].high_bits = 1, [44, 0, 0, 21]),
    ("10", refused(10, DAMAGED), |s| s.functions[DAMAGED].repeated = true, [44, 0, 0, 21]),
    ("11", refused(11, DAMAGED), |s| s.functions[DAMAGED].first_row = FirstRow::PastEnd(1), [44, 0, 0, 21]),
    ("11, of a row", refused(11, DAMAGED), |s| s.functions[DAMAGED].claimed_rows = Some(3), [44, 0, 0, 21]),
    ("14", refused(14, DAMAGED), |s| s.functions[DAMAGED - 1].size = u32::MAX, [0, 0, 0, 21]),
    ("unsorted", Verdict::Accepted, |s| s.flags = 0, [45; 4]),
    ("4", refused(4, 0), |s| s.version = 1, [4; 4]),
];

const fn refused(number: u64, index: usize) -> Verdict {
    Verdict::Refused { number, index: index as u64 }
}

/// Functions of many rows in the most bytes, and what asking answers in function 100 and in function 101.
const OF_ROWS: [(&str, Verdict, Edit, [u64; 2]); 5] = [
    ("sound", Verdict::Accepted, |_| (), [0, 0]),
    ("12 in row 500", refused(12, 100), |s| s.functions[100].rows[500].count = 0, [44, 0]),
    ("13 in row 1", refused(13, 100), |s| s.functions[100].rows[1].start = 0, [44, 0]),
    ("12 behind the rows", refused(12, 100), |s| s.functions[100].claimed_rows = Some(u32::MAX), [44, 0]),
    ("15", refused(15, 0), |s| s.claims.rows = Some(0), [0, 0]),
];

fn pc_at(d: i64) -> u64 {
    ADDRESS.wrapping_add_signed(d)
}

// In the damaged function, the first and the last, and behind them.
fn places_of_functions() -> [u64; 4] {
    let begin = |function: usize| FIRST + STEP * function as i64;
    [begin(DAMAGED) + 5, begin(0), begin(MOST_FUNCTIONS - 1) + STEP - 1, begin(MOST_FUNCTIONS)].map(pc_at)
}

fn places_of_rows() -> [u64; 2] {
    [100, 101].map(|function| pc_at(i64::from(STEP_OF_MANY) * function + 1_501))
}

// Asks with all that is not named forbidden; the number answered, and how many pages could be read.
fn ask_sparsely(room: &mut Guarded, section: &[u8], pc: u64) -> (u64, usize) {
    let expected = ask(section, ADDRESS, pc);
    let sparse = room.sparse_at(Side::Front, section, &named_bytes(section, ADDRESS, pc));
    let by_library = LIBRARY.ask(sparse.bytes(), ADDRESS, pc);
    assert_eq!(by_library, library::Answer::of_asked(&expected), "PC {pc:x}");
    (by_library.number, sparse.pages)
}

/// A section to be asked at PCs with the numbers that are stated, and by chance at places d.
struct Scene<'a> {
    name: String,
    section: &'a Section,
    verdict: Verdict,
    stated: Vec<(u64, u64)>,
    places: Range<i64>,
}

fn ask_all(room: &mut Guarded, scene: &Scene) {
    let (name, section) = (&scene.name, scene.section.bytes());
    assert_eq!((section.len(), check(&section)), (MOST_BYTES, scene.verdict), "{name}");
    let mut most = 0;
    for &(pc, number) in &scene.stated {
        let (answered, pages) = ask_sparsely(room, &section, pc);
        assert_eq!(answered, number, "{name}, PC {pc:x}");
        most = most.max(pages);
    }
    let (mut random, room_of) = (Random::new(SEED), (scene.places.end - scene.places.start) as u64);
    for _ in 0..BY_CHANCE {
        let pc = pc_at(scene.places.start + random.below(room_of) as i64);
        most = most.max(ask_sparsely(room, &section, pc).1);
    }
    let (asked, all) = (scene.stated.len() + BY_CHANCE, MOST_BYTES.div_ceil(page_size()));
    println!("{name}: {asked} times asked, and at most {most} of {all} pages could be read");
    // That of the header, that of each entry compared, and those of one function's rows.
    assert!(most <= 1 + 20 + 5, "{name}: {most}");
}

#[test]
fn only_what_is_named_is_read_of_the_most_functions() {
    guarded::tell_faults_by(tell_fault);
    let mut room = Guarded::with_room(MOST_BYTES);
    for (name, verdict, edit, numbers) in OF_FUNCTIONS {
        let mut section = many_functions(MOST_FUNCTIONS);
        edit(&mut section);
        let stated = places_of_functions().into_iter().zip(numbers).collect();
        let places = FIRST - STEP..FIRST + STEP * (MOST_FUNCTIONS as i64 + 1);
        let name = format!("838,859 functions, {name}");
        ask_all(&mut room, &Scene { name, section: &section, verdict, stated, places });
    }
}

#[test]
fn only_what_is_named_is_read_of_many_rows() {
    guarded::tell_faults_by(tell_fault);
    let mut room = Guarded::with_room(MOST_BYTES);
    for (name, verdict, edit, numbers) in OF_ROWS {
        let mut section = functions_of_many_rows();
        edit(&mut section);
        let stated = places_of_rows().into_iter().zip(numbers).collect();
        let (name, places) = (format!("1,000 rows each, {name}"), -1_000..i64::from(251 * STEP_OF_MANY));
        ask_all(&mut room, &Scene { name, section: &section, verdict, stated, places });
    }
}

// Past what a test's output is kept in, since the program ends here.
fn tell_fault() {
    let told = writeln!(io::stderr(), "a page was touched that has no byte which is named");
    told.expect("there is a standard error");
}

// The forbidden pages are what makes this a test, so they are tried: another process of this test makes a call that
// reads more than what is named, or asks for another PC, and must be killed for it.
#[test]
fn what_reads_more_is_noticed() {
    for (call, is_killed) in [("ask", false), ("check", true), ("lookup", true), ("ask of another PC", true)] {
        let this = std::env::current_exe().expect("the test's own file");
        let mut child = Command::new(this);
        child.args(["--exact", "reads_sparsely", "--ignored"]).env("CALL_TO_MAKE", call);
        let ended = child.output().expect("the test can be started again").status;
        let killed = [Some(7), Some(11)].contains(&ended.signal());
        assert_eq!((killed, ended.success()), (is_killed, !is_killed), "{call}: {ended}");
    }
}

#[test]
#[ignore = "ends its process; started by what_reads_more_is_noticed"]
fn reads_sparsely() {
    let Ok(call) = std::env::var("CALL_TO_MAKE") else { return };
    let section = many_functions(MOST_FUNCTIONS).bytes();
    let [pc, _, last, _] = places_of_functions();
    let mut room = Guarded::with_room(MOST_BYTES);
    let sparse = room.sparse_at(Side::Front, &section, &named_bytes(&section, ADDRESS, pc));
    let bytes = sparse.bytes();
    let number = match &call[..] {
        "ask" => LIBRARY.ask(bytes, ADDRESS, pc).number,
        "check" => LIBRARY.check(bytes).number(),
        "lookup" => LIBRARY.lookup(bytes, ADDRESS, pc).number,
        _ => LIBRARY.ask(bytes, ADDRESS, last).number,
    };
    assert_eq!(number, 0);
}
