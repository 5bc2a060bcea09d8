//! The program `reasons`, which says why lookups and steps come to their answers: line by line what the independent
//! reader says, of the records that are stored for it, of every stored question and walk, and of a seeded stream in
//! which every kind of explanation comes often.

use std::collections::BTreeMap;
use std::fs::{self, File};
use std::ops::Range;
use std::path::PathBuf;
use std::sync::Mutex;
use suntimpani_tests::cases::{self, Case, S};
use suntimpani_tests::program::{on_two_threads, program, Folder};
use suntimpani_tests::reader::{Process, Registers};
use suntimpani_tests::reasons::{Kind, Record, MOST_BYTES};
use suntimpani_tests::stream;

const CUT: &str = "the last record is cut\n";

/// What the program prints of a file of records.
fn said(folder: &Folder, records: &[u8]) -> String {
    folder.put("cases", records);
    let output = folder.path().join("output");
    let file = File::create(&output).expect("a temporary file");
    let run = program("reasons").current_dir(folder.path()).stdout(file).status().expect("the program starts");
    assert!(run.code().is_some(), "reasons: {run}");
    fs::read_to_string(&output).expect("a program prints UTF-8")
}

/// The records by files that the program reads.
fn in_files(records: &[Record]) -> Vec<Range<usize>> {
    let (mut files, mut begin, mut length) = (Vec::new(), 0, 0);
    for (place, record) in records.iter().enumerate() {
        assert!(record.length() <= MOST_BYTES, "record {place} fits no file");
        if length + record.length() > MOST_BYTES {
            files.push(begin..place);
            (begin, length) = (place, 0);
        }
        length += record.length();
    }
    files.push(begin..records.len());
    files
}

/// Holds the program against the reader. A record is told by what it is called and its number.
fn compare(folder: &Folder, called: &str, records: &[Record]) {
    for range in in_files(records) {
        let mut packed = Vec::new();
        records[range.clone()].iter().for_each(|record| record.put(&mut packed));
        let printed = said(folder, &packed);
        let lines: Vec<&str> = printed.split_inclusive('\n').collect();
        for (place, number) in range.clone().enumerate() {
            let expected = records[number].lines();
            let both = lines.get(2 * place..2 * place + 2).unwrap_or(&lines[lines.len().min(2 * place)..]).concat();
            if both != expected {
                let kept = keep(called, &packed);
                panic!(
                    "{called}, record {number} ({place} in {}):\nthe program: {both}\nthe reader:  {expected}",
                    kept.display()
                );
            }
        }
        if lines.len() != 2 * range.len() {
            panic!("{called}: lines behind the last record of {}: {:?}", keep(called, &packed).display(), lines.last());
        }
    }
}

// Where the folder of the test is removed at its end, the file stays.
fn keep(called: &str, records: &[u8]) -> PathBuf {
    let path = std::env::temp_dir().join(format!("suntimpani-reasons-{called}"));
    fs::write(&path, records).expect("a temporary file");
    path
}

#[test]
fn the_stored_records_are_explained() {
    let whys = cases::whys();
    let records: Vec<Record> = whys.into_iter().map(|why| why.record).collect();
    compare(&Folder::of("reasons-stored"), "stored", &records);
}

/// A question as a step would ask it, and a walk.
fn records_of(case: &Case) -> Vec<Record> {
    let asked = case.questions.iter().enumerate().map(|(number, question)| {
        let first = number as u64 % 2;
        let registers = Registers { pc: question.pc, sp: 0x7000, fp: 0x7010, lr: 0x5555_5555_7000, first };
        let process = Process { section: question.address, stack: 0x7000, mask: 0xff7f_0000_0000_0000 };
        Record { section: case.section.clone(), stack: (1..=48).collect(), process, registers }
    });
    let walked = case.walks.iter().map(|(walk, _)| Record {
        section: case.section.clone(),
        stack: walk.stack.clone(),
        process: walk.process,
        registers: walk.registers,
    });
    asked.chain(walked).collect()
}

// All of them: no section is too long for a file.
#[test]
fn every_stored_question_and_walk_is_explained() {
    let cases: Vec<Case> =
        cases::all().into_iter().filter(|case| !case.questions.is_empty() || !case.walks.is_empty()).collect();
    let groups: Vec<&[Case]> = cases.chunks(20).collect();
    let compared = Mutex::new(0);
    on_two_threads("reasons-cases", &groups, |folder, group| {
        let records: Vec<Record> = group.iter().flat_map(records_of).collect();
        compare(folder, &format!("cases-{}", group[0].name), &records);
        *compared.lock().expect("no comparison panics") += records.len();
    });
    let compared = compared.into_inner().expect("no comparison panics");
    println!("{compared} stored questions and walks were explained");
    assert!(compared >= 7_000, "{compared}");
}

const SEED: u64 = 20_261_117;
const EACH: u64 = 10_000;
const RECORDS_OF_A_PART: u64 = 10_000;

#[test]
fn a_stream_of_every_kind_is_explained() {
    let parts: Vec<u64> = (0..EACH * Kind::ALL.len() as u64).step_by(RECORDS_OF_A_PART as usize).collect();
    let counts = Mutex::new(BTreeMap::<Kind, u64>::new());
    on_two_threads("reasons-stream", &parts, |folder, &begin| {
        let records: Vec<Record> =
            (begin..begin + RECORDS_OF_A_PART).map(|number| stream::record(SEED, number)).collect();
        compare(folder, &format!("stream-from-{begin}"), &records);
        let mut counts = counts.lock().expect("no comparison panics");
        records.iter().flat_map(Record::kinds).for_each(|kind| *counts.entry(kind).or_default() += 1);
    });
    let counts = counts.into_inner().expect("no comparison panics");
    println!("how often each kind was explained: {counts:#?}");
    assert!(Kind::ALL.iter().all(|kind| counts.get(kind).is_some_and(|&count| count >= EACH)), "{counts:?}");
}

// Two records, and the file cut at every byte of the second.
#[test]
fn a_record_that_is_cut_is_told() {
    let folder = Folder::of("reasons-cut");
    let whys = cases::whys();
    let [first, second] = [&whys[0].record, &whys[10].record];
    let mut packed = Vec::new();
    [first, second].iter().for_each(|record| record.put(&mut packed));
    for length in first.length()..packed.len() {
        let end = if length < first.length() + 80 { "" } else { CUT };
        assert_eq!(said(&folder, &packed[..length]), first.lines() + end, "{length} bytes");
    }
    assert_eq!(said(&folder, &packed), first.lines() + &second.lines());
    assert_eq!(said(&folder, &[]), "");
}

// Nearly all of it is the stack of one record, which RA's word is the last of.
#[test]
fn a_file_of_the_most_bytes_is_read() {
    let (sp, length) = (0x7fff_0000_0000, MOST_BYTES - 80 - S.len());
    let registers = Registers { pc: 0x40_1044, sp, fp: 0x7030, lr: 0, first: 1 };
    let process = Process { section: 0x40_0000, stack: sp + 8 - length as u64, mask: 0 };
    let record = Record { section: S.to_vec(), stack: vec![0xab; length], process, registers };
    assert_eq!((record.length(), record.kinds()[1]), (MOST_BYTES, Kind::CallerByStack));
    compare(&Folder::of("reasons-most"), "most", &[record]);
}

/// Lengths of a section and of a stack that no file has, also where their sum would come round to one that it has.
const TOO_LONG: [(u64, u64); 9] = [
    (u64::MAX, 0),
    (1 << 63, 0),
    (1 << 32, 0),
    (0, u64::MAX),
    (0, 1 << 63),
    (0, 1 << 32),
    (1 << 63, 1 << 63),
    (u64::MAX, 1),
    (28, u64::MAX - 27),
];

#[test]
fn a_length_past_the_end_is_a_cut() {
    let folder = Folder::of("reasons-lengths");
    let mut packed = Vec::new();
    cases::whys()[0].record.put(&mut packed);
    for (section, stack) in TOO_LONG {
        packed[..16].copy_from_slice(&[section, stack].map(u64::to_le_bytes).concat());
        assert_eq!(said(&folder, &packed), CUT, "lengths {section:x} and {stack:x}");
    }
}
