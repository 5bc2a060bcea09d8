//! The listing that `sframe list` prints: to the last byte what the independent reader says, for every stored section;
//! and row by row what other tools printed of the same sections.

use std::collections::{BTreeMap, BTreeSet};
use std::fs;
use suntimpani_tests::cases::{self, corpus_section, Case, CORPUS_VERDICTS, S};
use suntimpani_tests::dump::Dump;
use suntimpani_tests::in_repository;
use suntimpani_tests::large;
use suntimpani_tests::maker::{self, Machine, Section};
use suntimpani_tests::program::{counted, on_two_threads, Folder};
use suntimpani_tests::reader::{self, Base, Block, Function, Header, Place, Row, Verdict};
use suntimpani_tests::stream::turn;
use suntimpani_tests::words::{self, hints, wrong};

// The whole section, in a file of its name.
fn list(folder: &Folder, name: &str, section: &[u8]) {
    folder.put(name, section);
    let refused = reader::check(section) != Verdict::Accepted;
    let error = if refused { wrong::refused_section() } else { String::new() };
    let error = hints::of_file(name, section) + &error;
    folder.says(&["list", name], &words::listing(section), &error);
}

// One function by its index.
fn list_one(folder: &Folder, name: &str, section: &[u8], index: u64) {
    folder.put(name, section);
    let error = match (reader::check(section), Header::read(section)) {
        (Verdict::Accepted, Some(header)) if index >= header.functions.into() => {
            wrong::no_function(index, header.functions)
        }
        (Verdict::Accepted, _) => String::new(),
        (Verdict::Refused { .. }, _) => wrong::refused_section(),
    };
    let error = hints::of_file(name, section) + &error;
    folder.says(&["list", name, &counted(index)], &words::listing_of(section, index), &error);
}

// Each section once, under the name of its first case. The corpus and the recorded crash are among them.
#[test]
fn every_stored_section_is_listed() {
    let mut seen = BTreeSet::new();
    let stored: Vec<Case> = cases::all().into_iter().filter(|case| seen.insert(case.section.clone())).collect();
    let is_stored = |name: &str| stored.iter().any(|case| case.name == name);
    assert!(is_stored("ok_recorded_crash") && CORPUS_VERDICTS.iter().all(|(name, _)| is_stored(name)));
    on_two_threads("stored", &stored, |folder, case| list(folder, &case.name, &case.section));
}

const SEED: u64 = 20_260_104;
const TURNS: u64 = 200;

// Generated sections, as the library's calls are compared in; a section that is only said to be longer is none to print.
#[test]
fn generated_sections_are_listed() {
    let turns =
        (0..TURNS).map(|number| (number, turn(SEED, number))).filter(|(_, turn)| turn.length == turn.section.len());
    let sections: Vec<(String, Vec<u8>)> =
        turns.map(|(number, turn)| (format!("turn_{number}"), turn.section)).collect();
    let accepted = sections.iter().filter(|(_, section)| reader::check(section) == Verdict::Accepted).count();
    assert!(accepted >= 40 && sections.len() - accepted >= 40, "{accepted} of {} are accepted", sections.len());
    on_two_threads("generated", &sections, |folder, (name, section)| list(folder, name, section));
}

/// Cases of every machine: sorted and not, relative, with repeated blocks, with functions that have no rows, and with
/// no functions at all.
const BY_INDEX: [&str; 16] = [
    "K1_S",
    "gas_exe",
    "amd64_plt_so",
    "llvm_amd64_hand_exe",
    "ok_recorded_crash",
    "aarch64_gcc_o",
    "aarch64be_hand_exe",
    "ok_28_bytes_no_functions_aarch64be",
    "ok_no_functions_row_bytes_amd64",
    "ok_one_entry_alone",
    "ok_last_without_rows_aarch64",
    "ok_rows_in_another_order_aarch64be",
    "ok_find_repeated_aarch64",
    "ok_find_rel_fields_fall",
    "ok_unsorted_any_order_rel_aarch64be",
    "ok_all_share_rows_amd64",
];

// The first three functions, the last, and the one that would be next.
#[test]
fn every_function_is_listed_by_its_index() {
    let stored: BTreeMap<String, Vec<u8>> = cases::all().into_iter().map(|case| (case.name, case.section)).collect();
    let mut asked = Vec::new();
    for name in BY_INDEX {
        let count = reader::functions(&stored[name]).len() as u64;
        let indexes = BTreeSet::from([0, 1, 2, count.saturating_sub(1), count]);
        asked.extend(indexes.into_iter().filter(|index| *index <= count).map(|index| (name, index)));
    }
    on_two_threads("indexes", &asked, |folder, (name, index)| list_one(folder, name, &stored[*name], *index));
}

// An index has all its bits.
#[test]
fn an_index_far_beyond_the_last_is_told() {
    let folder = Folder::of("far");
    for index in [2, 3, 1 << 32, (1 << 32) + 1, 1 << 63, 9_999_999_999_999_999_999] {
        list_one(&folder, "S", &S, index);
    }
}

// The first case of every number that a section is refused with; 2 is longer than what the program reads.
#[test]
fn a_refused_section_is_two_numbers_whatever_the_index() {
    let mut told = BTreeSet::new();
    let is_first = |case: &Case| case.expected != Verdict::Accepted && told.insert(case.expected.number());
    let refused: Vec<Case> = cases::all().into_iter().filter(is_first).collect();
    assert_eq!(told, [1].into_iter().chain(3..=15).collect());
    on_two_threads("refused", &refused, |folder, case| {
        list_one(folder, &case.name, &case.section, 0);
        list_one(folder, &case.name, &case.section, 7);
    });
}

// The texts by hand, so that not all rests on `words`.
#[test]
fn the_listing_of_s_is_printed() {
    let folder = Folder::of("S");
    folder.put("S", &S);
    folder.put("cut", &S[..77]);
    let first = "function      0  start +0x00001000  size         32\n";
    let rows = "  row          0  SP  CFA          +8\n  row          4  FP  CFA         +16  FP         -16\n";
    let second = "function      1  start +0x00001040  size         16\n  row          0  SP  CFA          +8\n";
    folder.answers(&["list", "S"], &format!("{first}{rows}{second}"));
    folder.answers(&["list", "S", "0"], &format!("{first}{rows}"));
    folder.answers(&["list", "S", "0000000000000000001"], second);
    folder.refuses(&["list", "S", "2"], "sframe: there is no function 2: the section has 2\n");
    let why = "sframe: the section is refused; 'sframe check' says why\n";
    folder.says(&["list", "cut"], "8 0\n", why);
    folder.says(&["list", "cut", "1"], "8 0\n", why);
}

#[test]
fn stored_listings_are_printed() {
    let folder = Folder::of("listings");
    for name in ["amd64_plt_so", "aarch64_gcc_o"] {
        let path = in_repository("vectors/corpus/listings").join(format!("{name}.txt"));
        let stored = fs::read_to_string(&path).unwrap_or_else(|error| panic!("{}: {error}", path.display()));
        folder.put(name, &corpus_section(name));
        folder.answers(&["list", name], &stored);
    }
}

#[test]
fn a_section_of_no_functions_prints_nothing() {
    let folder = Folder::of("nothing");
    for machine in Machine::ALL {
        folder.put("nothing", &Section::new(machine).bytes());
        folder.answers(&["list", "nothing"], "");
        folder.refuses(&["list", "nothing", "0"], &wrong::no_function(0, 0));
    }
}

// 750,000 lines, functions up to an index of six digits, and as many rows in one function.
#[test]
fn long_sections_are_listed() {
    let folder = Folder::of("long");
    list(&folder, "four_rows", &large::functions_of_four_rows(150_000).bytes());
    let mut section = Section::new(Machine::Amd64);
    section.functions = (0..=100_000).map(|start| maker::Function::new(start, 1, 0, Vec::new())).collect();
    list(&folder, "functions", &section.bytes());
    let rows = (0..=100_000).map(|start| maker::Row::new(start, 0, &[8])).collect();
    section.functions = vec![maker::Function::new(0, u32::MAX, 2, rows)];
    list(&folder, "rows", &section.bytes());
}

// Of several faults the leftmost argument's is told, and the section's verdict behind all of them.
#[test]
fn the_leftmost_fault_is_told() {
    let folder = Folder::of("faults");
    folder.put("S", &S);
    folder.put("cut", &S[..77]);
    folder.refuses(&["list"], "sframe: 'list' takes FILE [INDEX]\n");
    folder.refuses(&["list", "nofile", "xyz", "1"], "sframe: 'list' takes FILE [INDEX]\n");
    folder.refuses(&["list", "nofile", "xyz"], &wrong::missing("nofile"));
    for file in ["S", "cut"] {
        let index = "sframe: INDEX is not a decimal number of 1 to 19 digits, leading zeros aside: '0x1'\n";
        folder.refuses(&["list", file, "0x1"], index);
        let digits = wrong::number("INDEX", "12345678901234567890");
        folder.refuses(&["list", file, "12345678901234567890"], &digits);
    }
}

// ---- against the dumps

/// The functions that a listing shows; a row that shows no RA has it at this place.
fn shown(listing: &str, unshown_ra: Place) -> Vec<Function> {
    let mut functions: Vec<Function> = Vec::new();
    for line in listing.lines() {
        let words: Vec<&str> = line.split_whitespace().collect();
        match words[..] {
            ["function", index, "start", start, "size", size, ref block @ ..] => {
                assert_eq!(index.parse(), Ok(functions.len()), "{line:?}");
                functions.push(shown_function(start, size, block));
            }
            ["row", start, base, "CFA", cfa, ref places @ ..] => {
                let row = shown_row(start, base, cfa, places, unshown_ra);
                functions.last_mut().expect("rows stand below their function").rows.push(row);
            }
            _ => panic!("{line:?} is neither a function's line nor a row's"),
        }
    }
    functions
}

fn shown_function(start: &str, size: &str, block: &[&str]) -> Function {
    let (sign, magnitude) = start.split_once("0x").expect("a hexadecimal start");
    let magnitude = i64::from_str_radix(magnitude, 16).expect("a hexadecimal start");
    let start = match sign {
        "+" => magnitude,
        "-" => -magnitude,
        _ => panic!("{sign:?} is no sign"),
    };
    let block = match block {
        [] => Block::Plain,
        ["block", size] => Block::Repeated(size.parse().expect("a decimal size")),
        other => panic!("{other:?} is no block"),
    };
    Function { start, size: size.parse().expect("a decimal size"), block, rows: Vec::new() }
}

fn shown_row(start: &str, base: &str, cfa: &str, places: &[&str], unshown_ra: Place) -> Row {
    let place = |name: &str| {
        let at = places.iter().position(|word| *word == name)?;
        Some(Place::AtOffset(places[at + 1].parse().expect("an offset from CFA")))
    };
    Row {
        start: start.parse().expect("a decimal start"),
        base: match base {
            "FP" => Base::Fp,
            "SP" => Base::Sp,
            _ => panic!("{base} is no base"),
        },
        cfa_offset: cfa.parse().expect("an offset from the base"),
        ra: place("RA").unwrap_or(unshown_ra),
        fp: place("FP").unwrap_or(Place::Register),
        signed: places.last() == Some(&"signed"),
    }
}

// Where the machine has RA if a row does not place it.
fn unshown_ra(fixed_ra: i8) -> Place {
    match fixed_ra {
        0 => Place::Register,
        fixed => Place::AtOffset(fixed.into()),
    }
}

#[test]
fn a_listing_shows_all_that_a_section_means() {
    for case in cases::all().iter().filter(|case| case.expected == Verdict::Accepted) {
        let header = Header::read(&case.section).expect("an accepted section has a header");
        let shown = shown(&words::listing(&case.section), unshown_ra(header.fixed_ra));
        assert_eq!(shown, reader::functions(&case.section), "{}", case.name);
    }
}

// By the program's own text: every accepted section that has a dump, and the recorded one beside them.
#[test]
fn listings_are_as_other_tools_show_the_sections() {
    let folder = Folder::of("dumps");
    let accepted = CORPUS_VERDICTS.iter().filter(|(_, verdict)| *verdict == Verdict::Accepted);
    let names = accepted.map(|(name, _)| *name).chain(["../../recorder/section"]);
    let mut compared = 0;
    for name in names {
        let Some(dump) = Dump::of(name) else { continue };
        folder.put("section", &corpus_section(name));
        let (listing, error) = folder.run(&["list", "section"]);
        assert_eq!(error, "", "{name}");
        dump.compare(name, &shown(&listing, unshown_ra(dump.fixed_ra)));
        compared += 1;
    }
    assert_eq!(compared, 9, "every accepted section but gas_exe has a dump");
}
