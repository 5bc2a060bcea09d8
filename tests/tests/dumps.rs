//! Holds the reader against what other tools printed of the same sections: vectors/corpus/sections/*.txt.

use std::collections::BTreeSet;
use std::fs;
use suntimpani_tests::cases::{corpus_section, CORPUS_VERDICTS, LAST_CALL_RUNS, SIGNED_SECTIONS};
use suntimpani_tests::dump::Dump;
use suntimpani_tests::in_repository;
use suntimpani_tests::reader::{check, functions, lookup, Block, Header, Outcome, Verdict};

#[test]
fn headers_are_as_shown() {
    let mut compared = 0;
    for (name, _) in CORPUS_VERDICTS {
        let Some(dump) = Dump::of(name) else { continue };
        let header = Header::read(&corpus_section(name)).expect("28 bytes and a magic");
        assert_eq!(header.version, dump.version, "{name}");
        assert_eq!(header.flags, dump.flags, "{name}");
        assert_eq!((header.functions, header.rows), (dump.function_count, dump.row_count), "{name}");
        // The reader of version 1 did not show the fixed place.
        if header.version > 1 {
            assert_eq!(header.fixed_ra, dump.fixed_ra, "{name}");
        }
        let rows: usize = dump.functions.iter().map(|function| function.rows.len()).sum();
        assert_eq!((dump.functions.len() as u32, rows as u32), (dump.function_count, dump.row_count), "{name}");
        compared += 1;
    }
    assert_eq!(compared, 13, "every section but gas_exe has a dump");
}

#[test]
fn functions_of_accepted_sections_are_as_shown() {
    let mut compared = Vec::new();
    for (name, verdict) in CORPUS_VERDICTS {
        if let (Verdict::Accepted, Some(dump)) = (verdict, Dump::of(name)) {
            dump.compare(name, &functions(&corpus_section(name)));
            compared.push(name);
        }
    }
    assert_eq!(compared.len(), 8, "{compared:?}");
}

// Every PC of every shown function, and those just before and behind it.
#[test]
fn lookups_find_what_is_shown() {
    let mut kinds = [0; 3];
    for (name, verdict) in CORPUS_VERDICTS {
        let (Verdict::Accepted, Some(dump)) = (verdict, Dump::of(name)) else { continue };
        let section = corpus_section(name);
        let address = dump.functions[0].pc - functions(&section)[0].start;
        let ranges = dump.functions.iter().map(|shown| (shown.pc - 1).max(0)..=shown.pc + i64::from(shown.size));
        let pcs: BTreeSet<i64> = ranges.flatten().collect();
        for pc in pcs {
            let expected = dump.outcome(pc);
            assert_eq!(lookup(&section, address as u64, pc as u64).outcome, expected, "{name} at {pc:x}");
            match expected {
                Outcome::Found { .. } => kinds[0] += 1,
                Outcome::Disputed { .. } => kinds[1] += 1,
                _ => kinds[2] += 1,
            }
        }
    }
    println!("found, disputed and neither: {kinds:?}");
    assert!(kinds.iter().all(|&count| count > 10), "{kinds:?}");
}

#[test]
fn the_unlinked_sorted_section_is_as_shown_once_it_is_not_called_sorted() {
    let mut section = corpus_section("amd64_r_o");
    section[3] = 0;
    let dump = Dump::of("amd64_r_o").expect("a dump");
    dump.compare("amd64_r_o", &functions(&section));
}

// Each of its two functions has two rows of one start; with the second of each one higher, in the section and in what
// the dump shows, the section is accepted and every row can be compared.
#[test]
fn the_section_with_rows_of_one_start_is_as_shown_once_they_are_told_apart() {
    let mut section = corpus_section("amd64_twice_exe");
    let mut dump = Dump::of("amd64_twice_exe").expect("a dump");
    for (function, row, at, shown) in [(0, 2, 0x4a, "401010"), (1, 3, 0x5d, "401030")] {
        assert_eq!(section[at], 0x10);
        section[at] += 1;
        let line = &mut dump.functions[function].rows[row];
        assert!(line.contains(shown), "{line:?}");
        *line = line.replace(shown, &format!("{}1", &shown[..5]));
    }
    dump.compare("amd64_twice_exe", &functions(&section));
}

#[test]
fn the_first_of_two_joined_sections_is_as_shown() {
    let section = corpus_section("llvm_amd64_two_exe");
    let header = Header::read(&section).expect("28 bytes and a magic");
    let first = 28 + 20 * header.functions as usize + header.row_bytes as usize;
    let dump = Dump::of("llvm_amd64_two_exe").expect("a dump");
    dump.compare("llvm_amd64_two_exe", &functions(&section[..first]));
    // The other begins at the next multiple of 8, and has the two functions of the other source.
    let sizes: Vec<u32> = functions(&section[first.next_multiple_of(8)..]).iter().map(|f| f.size).collect();
    assert_eq!(sizes, [4, 2]);
}

#[test]
fn the_repeated_blocks_of_the_plt_are_of_16_bytes() {
    let blocks: Vec<Block> = functions(&corpus_section("amd64_plt_so")).iter().map(|f| f.block).collect();
    assert_eq!(blocks[..3], [Block::Plain, Block::Repeated(16), Block::Plain]);
}

#[test]
fn the_counts_of_gas_are_those_of_the_readme() {
    let found = functions(&corpus_section("gas_exe"));
    let rows: usize = found.iter().map(|function| function.rows.len()).sum();
    assert_eq!((found.len(), rows), (2_689, 24_625));
}

// The table of vectors/README.md: names in the first cell, the verdict in the last.
#[test]
fn verdicts_are_those_of_the_readme() {
    let page = fs::read_to_string(in_repository("vectors/README.md")).expect("the page is there");
    let mut names = 0;
    for line in page.lines().filter(|line| line.starts_with("| `")) {
        let cells: Vec<&str> = line.trim_matches('|').split('|').map(str::trim).collect();
        let [first, .., last] = cells[..] else { panic!("{line:?} is no row of the table") };
        let expected = match last.split_whitespace().collect::<Vec<_>>()[..] {
            ["accepted", ..] => "accepted".to_string(),
            [number, "at", index] => format!("refused {number} at {index}"),
            [number] => format!("refused {number} at 0"),
            _ => panic!("{last:?} is no verdict"),
        };
        for name in first.split(", ").map(|name| name.trim_matches('`')) {
            assert_eq!(check(&corpus_section(name)).to_string(), expected, "{name}");
            names += 1;
        }
    }
    assert_eq!(names, CORPUS_VERDICTS.len());
}

// The sections that the crash recorder wrote of itself: vectors/recorder and vectors/recorder_aarch64, beside the
// corpus.
#[test]
fn the_recorded_sections_are_as_shown() {
    for (folder, count) in [("recorder", 17), ("recorder_aarch64/plain", 42), ("recorder_aarch64/signed", 42)] {
        let recorded = format!("../../{folder}/section");
        let dump = Dump::of(&recorded).expect("a dump");
        let found = functions(&corpus_section(&recorded));
        assert_eq!(found.len(), count, "{folder}");
        dump.compare(&recorded, &found);
    }
}

// The sections of the programs whose functions end in calls: vectors/last_calls.
#[test]
fn the_sections_with_last_calls_are_as_shown() {
    for (machine, _) in LAST_CALL_RUNS {
        let name = format!("../../last_calls/{machine}");
        let dump = Dump::of(&name).expect("a dump");
        let found = functions(&corpus_section(&name));
        assert_eq!(found.len(), 8);
        dump.compare(&name, &found);
    }
}

// The sections of functions that sign their return addresses: vectors/signed. The key is a bit of the entry's info byte
// that no answer depends on, and so the reader does not have it.
#[test]
fn the_sections_with_signatures_are_as_shown() {
    for name in SIGNED_SECTIONS {
        let file = format!("../../signed/{name}");
        let dump = Dump::of(&file).expect("a dump");
        let section = corpus_section(&file);
        let found = functions(&section);
        dump.compare(&file, &found);
        let signed = found.iter().map(|function| function.rows.iter().filter(|row| row.signed).count());
        assert_eq!(signed.collect::<Vec<_>>(), [0, 5, 3, 3, 0], "{name}");
        let key_b = (0..found.len()).map(|index| section[28 + 20 * index + 16] & 0x20 != 0).collect::<Vec<_>>();
        let shown: Vec<bool> = dump.functions.iter().map(|function| function.key_b).collect();
        assert_eq!(key_b, shown, "{name}");
        let signs_by_b = name.starts_with("key_b");
        assert_eq!(shown, [false, signs_by_b, signs_by_b, signs_by_b, false], "{name}");
    }
}
