//! What a run of `sframe why` takes beside one of `sframe lookup` for the same PC, and the least limit of the stack under
//! which the proved program answers each.

use crate::sections::name_of;
use crate::table::{self, WhyLine};
use std::process::{Command, Stdio};
use suntimpani_tests::program::{program, Folder};
use suntimpani_tests::reader::functions;
use suntimpani_tests::timing::{turn_about, Way};
use suntimpani_tests::{cases, in_repository, large, ADDRESS};

const ROUNDS: usize = 11;

/// The last but one is about as many as the proved program reads on the usual stack, the last as many as a section has.
const SIZES: [usize; 5] = [100, 10_000, 100_000, 314_000, 838_000];

/// The highest limit that is tried, in KiB.
const MOST_STACK: u32 = 65_536;

/// A section, and a PC of which there is a row and one that no function covers.
struct Asked {
    name: String,
    bytes: Vec<u8>,
    covered: u64,
    uncovered: u64,
}

pub fn print_lines() {
    table::print_why_head();
    let folder = Folder::of("bench-why");
    for asked in sections() {
        folder.put("section", &asked.bytes);
        line(&folder, &asked, "a row", asked.covered).print();
        line(&folder, &asked, "21", asked.uncovered).print();
    }
}

fn sections() -> Vec<Asked> {
    let by_size = SIZES.map(|count| asked(name_of(count, ""), large::many_functions(count).bytes()));
    let gas = asked("GNU as: 2,689 functions".to_string(), cases::corpus_section("gas_exe"));
    by_size.into_iter().chain([gas]).collect()
}

// The middle function's first byte, and the first byte behind all functions.
fn asked(name: String, bytes: Vec<u8>) -> Asked {
    let functions = functions(&bytes);
    let middle = functions[functions.len() / 2].start;
    let end = functions.iter().map(|function| function.start + i64::from(function.size)).max();
    let at = |offset| ADDRESS.wrapping_add_signed(offset);
    Asked { name, bytes, covered: at(middle), uncovered: at(end.expect("there are functions")) }
}

fn line(folder: &Folder, asked: &Asked, answer: &'static str, pc: u64) -> WhyLine {
    let arguments =
        |command: &str| [command.to_string(), "section".to_string(), format!("{ADDRESS:x}"), format!("{pc:x}")];
    let [why, lookup] = ["why", "lookup"].map(arguments);
    // The command as people run it: 1 is the status of a refusal.
    let run = |arguments: &[String]| {
        let mut command = Command::new(in_repository("bin/sframe"));
        let done = command.args(arguments).current_dir(folder.path()).stdout(Stdio::null()).status();
        let expected = i32::from(answer == "21");
        assert!(done.is_ok_and(|status| status.code() == Some(expected)), "{arguments:?}");
    };
    let ways: &mut [Way] = &mut [&mut || run(&why), &mut || run(&lookup)];
    let times = turn_about(ROUNDS, ways);
    let stack = [&why, &lookup].map(|arguments| least_stack(folder, arguments));
    WhyLine { section: asked.name.clone(), answer, times, stack }
}

// By halving: the least limit, in KiB, under which the program has room for the file.
fn least_stack(folder: &Folder, arguments: &[String]) -> u32 {
    let (mut low, mut high) = (0, MOST_STACK);
    while high - low > 1 {
        let middle = (low + high) / 2;
        if answers_under(folder, arguments, middle) {
            high = middle;
        } else {
            low = middle;
        }
    }
    high
}

fn answers_under(folder: &Folder, arguments: &[String], limit: u32) -> bool {
    let sframe = program("sframe");
    let mut shell = Command::new("sh");
    shell.args(["-c", &format!("ulimit -s {limit} && exec \"$@\""), "sh"]).arg(sframe.get_program());
    shell.args(sframe.get_args()).args(arguments).current_dir(folder.path());
    shell.output().is_ok_and(|said| said.status.success() && said.stderr.is_empty())
}
