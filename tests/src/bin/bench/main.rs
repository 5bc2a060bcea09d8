//! Times the library's calls against the independent reader's and, where there is one, the system's libsframe, and
//! measures how much stack the calls use: one table of one run.

mod ask;
mod mapped;
mod resident;
mod rows;
mod sections;
mod stack;
mod table;
mod times;
mod why;

use std::env;
use std::time::Instant;
use suntimpani_tests::libsframe::Libsframe;
use table::Line;

/// The argument that asks for the table of rows alone.
const ROWS_ALONE: &str = "rows";

/// The argument that asks for the frames of traces alone.
const FRAMES_ALONE: &str = "frames";

/// The argument that asks for the asks alone.
const ASKS_ALONE: &str = "ask";

/// The argument that asks for the runs of `sframe why` alone.
const WHY_ALONE: &str = "why";

fn main() {
    let begin = Instant::now();
    let part = env::args().nth(1).unwrap_or_default();
    if part == FRAMES_ALONE {
        return print_frames();
    }
    if part == WHY_ALONE {
        return why::print_lines();
    }
    let libsframe = Libsframe::open();
    if part == ASKS_ALONE {
        print_asks(libsframe.as_ref().ok());
        print_notes_on_asks();
    } else {
        times::assert_alike_on_stored_cases();
        print_tables(libsframe.as_ref().ok(), part != ROWS_ALONE);
        print_notes();
    }
    if let Some(why) = libsframe.err() {
        println!("No libsframe was timed: {why}.");
    }
    println!("measured in {:.0} s", begin.elapsed().as_secs_f64());
}

// Everything, or the rows alone.
fn print_tables(libsframe: Option<&Libsframe>, all: bool) {
    if all {
        print_calls(libsframe);
        resident::print_lines();
        println!();
        why::print_lines();
        println!();
    }
    rows::print_lines(libsframe);
    println!();
}

// Single addresses of sections that nobody checked.
fn print_asks(libsframe: Option<&Libsframe>) {
    table::print_head();
    for section in &sections::of_asks() {
        ask::of_ask(section, libsframe).iter().for_each(Line::print);
    }
    println!();
    resident::print_lines();
    println!();
}

// Traces where a frame of them can be told.
fn print_frames() {
    table::print_head();
    for section in &sections::of_frames() {
        times::of_trace(section, None).iter().for_each(Line::print);
    }
}

// Every call in every section, and the stack that each call uses.
fn print_calls(libsframe: Option<&Libsframe>) {
    table::print_head();
    let sections = sections::all();
    let calls = [
        times::of_check,
        times::of_listing,
        times::of_entry,
        times::of_find,
        ask::of_ask,
        times::of_caller,
        times::of_trace,
    ];
    for times in calls {
        for section in &sections {
            times(section, libsframe).iter().for_each(Line::print);
        }
        println!();
    }
    stack::print_lines();
    println!();
}

fn print_notes() {
    println!(
        "Times are medians of the rounds, ratios medians of the rounds' ratios; all ways take turns in each round."
    );
    println!(
        "list: all lines of a section, each folded into a digest; one check's time is taken off, and stands above."
    );
    println!(
        "entry: a function by its index, of 1,000 indexes all over the section; the header is checked by each call."
    );
    println!("find: a lookup in a section that was checked once. caller, trace: one call with its check.");
    println!(
        "frame: one of a trace's frames, 64 where no other number is told, the check taken off, where it is not lost in"
    );
    println!("the check's time; 128 frames are those of limit 0.");
    println!("signed: every row has the signed bit, and the trace a mask that clears a signature from each RA.");
    println!(
        "libsframe: sframe_decode and sframe_decoder_free beside check, sframe_find_fre beside find. A decode looks at"
    );
    println!("the header and copies the rest: it checks no row.");
    print_notes_on_asks();
    println!(
        "rows: a find in one function of so many rows of two offsets, or in turn of two and of one; starts and offsets"
    );
    println!(
        "of so many bytes. a row: the library's time by the rows passed. decoding: a reader that decodes each of them."
    );
    println!("stack: the most bytes that a call wrote below its return address, over so many calls.");
    println!(
        "why: a whole run of the command, which reads its file, beside a run of sframe lookup; and the least limit of the"
    );
    println!("stack, by ulimit -s, under which the proved program answers each.");
}

fn print_notes_on_asks() {
    println!(
        "ask: one address of a section that nobody checked; libsframe's find in a section that it decoded before."
    );
    println!(
        "lookup: the same answer with a check of the whole section. Each way is gone once before each sample of it."
    );
    println!("mapped: a million asks from a file that no page is in memory of, and again from memory; their PCs are");
    println!(
        "all over the functions, or drawn from 1,000 such addresses. KiB: what of 16,384 is then resident, by Rss"
    );
    println!("of /proc/self/smaps; the file is dropped from the page cache before, and nothing is read ahead, so that");
    println!("only touched pages count.");
}
