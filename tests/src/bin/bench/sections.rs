//! The sections that are timed.

use suntimpani_tests::maker::{Function, Machine, Row, Section, SORTED};
use suntimpani_tests::reader::{functions, Process, Registers, USUAL_FRAMES};
use suntimpani_tests::stream::Random;
use suntimpani_tests::walk::Walk;
use suntimpani_tests::{cases, laid, large, ADDRESS};

const SEED: u64 = 20_260_102;

/// How many frames a timed trace has in a section of any size; and in the small ones also the usual limit's, and the
/// highest limit's.
const FRAMES: u64 = 64;
const DEEPER: [u64; 2] = [USUAL_FRAMES, 256];

/// How many functions the section has that is made to be listed.
const LISTED: usize = 150_000;

const SIZES: [usize; 5] = [100, 1_000, 10_000, 100_000, 838_859];

const MOST_BYTES: usize = 16_777_216;

/// How many rows each function has in the section that is mostly rows.
const ROWS: u32 = 18;

/// A section, and what is asked of it.
pub struct Timed {
    pub name: String,
    pub bytes: Vec<u8>,
    /// The PCs of its finds; none where finds are not timed.
    pub pcs: Vec<u64>,
    /// The walk of its callers and traces; none where they are not timed.
    pub walk: Option<Walk>,
    /// Whether its check is a line of its own.
    pub checked: bool,
    /// Whether its listing is timed.
    pub listed: bool,
}

/// What is cleared from the return addresses of signed rows: addresses of 48 bits, below a top byte that is ignored.
pub const MASK: u64 = 0x007f_0000_0000_0000;

/// Sections of every size by one construction, one that is not sorted, a large one of the corpus, one of many rows to
/// be listed and, for the frames of a trace, three small ones, the last as the one before it with every row signed; and
/// these once more for deeper traces.
pub fn all() -> Vec<Timed> {
    let mut all = of_asks();
    let bytes = large::functions_of_four_rows(LISTED).bytes();
    let name = name_of(LISTED, ", 4 rows each");
    all.push(Timed { name, bytes, pcs: Vec::new(), walk: None, checked: true, listed: true });
    let unsorted = large::many_functions_unsorted(1_000).bytes();
    let pcs = pcs_over(&unsorted, 10_000);
    all.push(Timed {
        name: name_of(1_000, ", not sorted"),
        bytes: unsorted,
        pcs,
        walk: None,
        checked: false,
        listed: false,
    });
    all.extend(small(FRAMES));
    all.extend(DEEPER.into_iter().flat_map(of_depth));
    all
}

/// The sections that are asked without a check: of every size, and the large one of the corpus.
pub fn of_asks() -> Vec<Timed> {
    let by_size = SIZES.map(|count| whole(name_of(count, ""), large::many_functions(count).bytes()));
    let gas = whole("GNU as: 2,689 functions".to_string(), cases::corpus_section("gas_exe"));
    by_size.into_iter().chain([Timed { listed: true, ..gas }]).collect()
}

/// A section of the most bytes that there may be.
pub struct Largest {
    pub name: String,
    pub bytes: Vec<u8>,
}

/// One that is nearly all entries, and one that is mostly rows.
pub fn of_most_bytes() -> [Largest; 2] {
    let count = *SIZES.last().expect("there are sizes");
    let entries = Largest { name: name_of(count, ""), bytes: large::many_functions(count).bytes() };
    let rows = mostly_rows();
    let name = name_of(rows.functions.len(), &format!(", {ROWS} rows each"));
    let both = [entries, Largest { name, bytes: rows.bytes() }];
    assert!(both.iter().all(|largest| largest.bytes.len() == MOST_BYTES), "each has the most bytes");
    both
}

// As many adjoining functions as there is room for, each with rows of its own, of one offset and of two in turn.
fn mostly_rows() -> Section {
    let rows: Vec<Row> =
        (0..ROWS).map(|number| Row::new(3 * number, 0, &[8, -16][..1 + number as usize % 2])).collect();
    let function_bytes = 20 + rows.iter().map(|row| row.length(1)).sum::<usize>();
    let count = (MOST_BYTES - 28) / function_bytes;
    let mut section = Section::new(Machine::Amd64);
    section.flags = SORTED;
    let start = |index| 64 * index - 0x4000_0000;
    section.functions = (0..count as i64).map(|index| Function::new(start(index), 64, 0, rows.clone())).collect();
    section.tail = vec![0; MOST_BYTES - 28 - count * function_bytes];
    section
}

/// The sections in which a frame of a trace can be told, for traces of each depth.
pub fn of_frames() -> Vec<Timed> {
    [FRAMES].into_iter().chain(DEEPER).flat_map(of_depth).collect()
}

// 100 functions, and the small ones, for a trace of so many frames.
fn of_depth(frames: u64) -> Vec<Timed> {
    let hundred = large::many_functions(100).bytes();
    let walk = laid::through(&hundred, frames as usize, SEED);
    [of_traces(&name_of(100, ""), hundred, walk)].into_iter().chain(small(frames)).collect()
}

fn small(frames: u64) -> Vec<Timed> {
    let of_s = of_traces("S of document 01, one function calls itself", cases::S.to_vec(), calls_itself(frames));
    let big = small_big_endian(false);
    let walk = laid::through(&big, frames as usize, SEED);
    let plain = of_traces("AArch64 big-endian: 4 functions", big, walk);
    let signed = small_big_endian(true);
    let walk = laid::through_signed(&signed, frames as usize, SEED, MASK);
    let signed = of_traces("AArch64 big-endian: 4 functions, signed", signed, walk);
    vec![of_s, plain, signed]
}

// Traces alone. The usual number of frames has limit 0; a number other than that of the other tables is told.
fn of_traces(name: &str, bytes: Vec<u8>, walk: Walk) -> Timed {
    let frames = walk.limit;
    let name = if frames == FRAMES { name.to_string() } else { format!("{name}, {frames} frames") };
    let walk = Walk { limit: if frames == USUAL_FRAMES { 0 } else { frames }, ..walk };
    Timed { name, bytes, pcs: Vec::new(), walk: Some(walk), checked: false, listed: false }
}

fn whole(name: String, bytes: Vec<u8>) -> Timed {
    let walk = laid::through(&bytes, FRAMES as usize, SEED);
    Timed { name, pcs: pcs_over(&bytes, 100_000), walk: Some(walk), bytes, checked: true, listed: false }
}

pub fn name_of(count: usize, more: &str) -> String {
    let (thousands, rest) = (count / 1_000, count % 1_000);
    let digits = if thousands == 0 { rest.to_string() } else { format!("{thousands},{rest:03}") };
    format!("{digits} functions{more}")
}

/// PCs all over the functions of a section, and over a hundredth of their range on both sides.
pub fn pcs_over(section: &[u8], count: usize) -> Vec<u64> {
    let functions = functions(section);
    let low = functions.iter().map(|function| function.start).min().expect("the section has functions");
    let high = functions.iter().map(|function| function.start + i64::from(function.size)).max().expect("as before");
    let beyond = (high - low) / 100;
    let mut random = Random::new(SEED);
    let places = (0..count).map(|_| low - beyond + random.below((high - low + 2 * beyond) as u64) as i64);
    places.map(|d| ADDRESS.wrapping_add_signed(d)).collect()
}

// A chain of frame pointers in the first function of S: FP and RA in 16 bytes a frame, and the stack's end at its top.
fn calls_itself(frames: u64) -> Walk {
    let (begin, pc) = (0x7000, 0x40_1008);
    let chain = (1..=frames).flat_map(|frame| [begin + 16 * frame, if frame == frames { 0 } else { pc }]);
    let registers = Registers { pc, sp: begin, fp: begin, lr: 0, first: 1 };
    Walk {
        process: Process { section: 0x40_0000, stack: begin, mask: 0 },
        registers,
        stack: chain.flat_map(u64::to_le_bytes).collect(),
        limit: frames,
        words: 3 * frames as usize,
    }
}

/// A small section of AArch64, with no row signed or every one.
pub fn small_big_endian(signed: bool) -> Vec<u8> {
    let mut section = Section::new(Machine::Aarch64Big);
    section.flags = SORTED;
    let row = |start, offsets: [i32; 3]| Row { signed, ..Row::new(start, 0, &offsets) };
    let rows = || vec![row(0, [16, -8, -16]), row(8, [48, -40, -48]), row(60, [16, -8, -16])];
    section.functions = (0..4).map(|index| Function::new(0x1000 + 64 * index, 64, 0, rows())).collect();
    section.bytes()
}
