//! The program `sframe`, run as people run it: what it prints, to the last byte, is what the independent reader says in
//! the program's words; and its version is that of the package, the header, the pkg-config file and CHANGELOG.md.

use std::collections::BTreeSet;
use std::fs;
use std::ops::RangeInclusive;
use std::process::Command;
use suntimpani_tests::cases::{self, corpus_section, Case, CORPUS_VERDICTS, S};
use suntimpani_tests::maker::{Function, Machine, Row, Section};
use suntimpani_tests::program::{counted, text, Folder};
use suntimpani_tests::reader::{self, Base, Outcome, Place, Verdict, USUAL_FRAMES};
use suntimpani_tests::walk::Walk;
use suntimpani_tests::words::{self, forms, hints, wrong, COMMANDS, DECIMAL};
use suntimpani_tests::words::{MOST_BYTES, USUAL_SECTION_BYTES, USUAL_STACK_BYTES};
use suntimpani_tests::{in_repository, ADDRESS};

// Numbers are given in each of their forms, by turns.
fn given(number: u64) -> String {
    match number % 6 {
        0 => format!("{number:x}"),
        1 => format!("0x{number:x}"),
        2 => format!("{number:016x}"),
        3 => format!("0x{number:016x}"),
        4 => format!("0X{number:016X}"),
        _ => format!("{number:024x}"),
    }
}

/// The highest number of 19 digits.
const MOST_DECIMAL: u64 = 9_999_999_999_999_999_999;

fn check(folder: &Folder, section: &[u8]) {
    folder.put("section", section);
    let expected = words::verdict(section, reader::check(section));
    folder.says(&["check", "section"], &expected, &hints::of_file("section", section));
}

fn lookup(folder: &Folder, section: &[u8], address: u64, pc: u64) {
    folder.put("section", section);
    let answer = reader::lookup(section, address, pc);
    let hint = hints::of_file("section", section) + &hints::of_number(section, answer.refusal());
    let expected = words::answer(section, pc, &answer);
    folder.says(&["lookup", "section", &given(address), &given(pc)], &expected, &hint);
}

fn ask(folder: &Folder, section: &[u8], address: u64, pc: u64) {
    folder.put("section", section);
    let expected = words::asked(section, pc, &reader::ask(section, address, pc));
    let hint = hints::of_file("section", section);
    folder.says(&["ask", "section", &given(address), &given(pc)], &expected, &hint);
}

// A caller and a trace; a mask of 0 is left out. The program lends its own buffer, which has room for every limit; a
// limit of more digits than it takes would be too high anyway.
fn walk(folder: &Folder, section: &[u8], walk: &Walk) {
    let walk = Walk { words: 768, limit: walk.limit.min(MOST_DECIMAL), ..walk.clone() };
    let (walked, process, from) = (walk.by_reader(section), walk.process, walk.registers);
    folder.put("section", section);
    folder.put("stack", &walk.stack);
    let numbers = [from.pc, from.sp, from.fp, from.lr].map(given);
    let [pc, sp, fp, lr] = numbers.each_ref().map(String::as_str);
    let (address, stack_address) = (given(process.section), given(process.stack));
    let (first, limit, mask) = (given(from.first), counted(walk.limit), given(process.mask));
    let masks = if process.mask == 0 { &[][..] } else { &[&mask[..]] };
    let arguments = |command, last| {
        [&[command, "section", &address, "stack", &stack_address, pc, sp, fp, lr, last][..], masks].concat()
    };
    let hint = |number| hints::of_file("section", section) + &hints::of_number(section, number);
    folder.says(&arguments("caller", &first), &words::step(&walked.step), &hint(walked.step.number()));
    let traced = words::trace(walk.registers.pc, walk.limit, &walked);
    folder.says(&arguments("trace", &limit), &traced, &hint(walked.traced.ending.number()));
}

#[test]
fn every_section_of_the_corpus_is_checked() {
    let folder = Folder::of("corpus");
    for (name, expected) in CORPUS_VERDICTS {
        let section = corpus_section(name);
        assert_eq!(reader::check(&section), expected, "{name}");
        check(&folder, &section);
    }
}

// The texts by hand, so that not all rests on `words`.
#[test]
fn the_lookups_of_document_01_are_answered() {
    let folder = Folder::of("lookups");
    folder.put("S", &S);
    folder.answers(&["check", "S"], "accepted: AMD64, 2 functions, 3 rows, sorted\n");
    let entered = |function, compared| {
        let bounds = ["0 (start +0x1000, size 32)", "1 (start +0x1040, size 16)"][function];
        let place = format!("found: function {bounds}, row 0, which starts at 0");
        format!("{place}\nCFA is SP + 8\nRA is at CFA - 8\nFP is unchanged\nentries compared: {compared}\n")
    };
    let framed = "found: function 0 (start +0x1000, size 32), row 1, which starts at 4\n";
    let framed = format!("{framed}CFA is FP + 16\nRA is at CFA - 8\nFP is at CFA - 16\nentries compared: 2\n");
    let none = |pc| format!("refused: 21, no function covers the PC\nlooked up: {pc}\nentries compared: 2\n");
    let answers = [
        ("401003", 0x40_1003, entered(0, 2)),
        ("0x401004", 0x40_1004, framed.clone()),
        ("000000000040101f", 0x40_101f, framed),
        ("400fff", 0x40_0fff, none("0000000000400fff")),
        ("401020", 0x40_1020, none("0000000000401020")),
        ("0X00000000000000000000040103F", 0x40_103f, none("000000000040103f")),
        ("401040", 0x40_1040, entered(1, 1)),
    ];
    for (pc, _, expected) in &answers {
        folder.answers(&["lookup", "S", "400000", pc], expected);
    }
    // All of them in one run, each behind its PC.
    let all: Vec<&str> = ["lookup", "S", "400000"].into_iter().chain(answers.iter().map(|(pc, _, _)| *pc)).collect();
    let expected: String = answers.iter().map(|(_, pc, answer)| format!("PC {pc:016x}\n{answer}")).collect();
    folder.answers(&all, &expected);
}

// By hand too: S, S without its flag, cut short, and with a second row of the first function that starts as the first.
#[test]
fn one_address_is_asked_of_s() {
    let folder = Folder::of("asked_of_s");
    let (mut unsorted, mut twice) = (S, S);
    (unsorted[3], twice[71]) = (0, 0);
    for (name, section) in [("S", &S[..]), ("unsorted", &unsorted), ("short", &S[..27]), ("twice", &twice)] {
        folder.put(name, section);
    }
    let row = "row 0, which starts at 0\nCFA is SP + 8\nRA is at CFA - 8\nFP is unchanged\nentries compared: ";
    let (first, second) = ("function 0 (start +0x1000, size 32)", "function 1 (start +0x1040, size 16)");
    let none = |pc| {
        format!("refused: 21, no function that covers the PC was landed on\nlooked up: {pc}\nentries compared: 2\n")
    };
    let unsorted = "refused: 45, the sorted flag is not set, and only a sorted section can be asked";
    let damaged = "refused: 44, the function landed on covers the PC and breaks one of the rules 9 to 13, in ";
    let answers = [
        ("S", "401003", format!("found: {first}, {row}2\n")),
        ("S", "0x000000000040103F", none("000000000040103f")),
        ("S", "401040", format!("found: {second}, {row}1\n")),
        ("unsorted", "401003", format!("{unsorted}\nentries compared: 0\n")),
        ("short", "401003", "refused: 1, fewer than 28 bytes\nentries compared: 0\n".to_string()),
        ("twice", "401003", format!("{damaged}{first}\nlooked up: 0000000000401003\nentries compared: 2\n")),
        ("twice", "401020", none("0000000000401020")),
        ("twice", "0x401040", format!("found: {second}, {row}1\n")),
    ];
    for (file, pc, expected) in answers {
        folder.answers(&["ask", file, "400000", pc], &expected);
    }
    let refused = "refused: 13, a row start is not above the one before it, in function 0\nentries compared: 0\n";
    folder.answers(&["lookup", "twice", "400000", "401040"], refused);
}

// One question of every answer that is told apart, in each machine's stored cases.
#[test]
fn every_answer_of_one_that_is_asked_is_told() {
    let folder = Folder::of("asked");
    let mut told = BTreeSet::new();
    for case in cases::all() {
        for question in &case.questions {
            let asked = case.asked_of(question);
            let abi = case.section.get(4).copied().unwrap_or(0);
            if told.insert((abi, asked.refusal(), case.expected.number())) {
                ask(&folder, &case.section, question.address, question.pc);
            }
        }
    }
    let numbers: BTreeSet<u64> = told.iter().map(|(_, number, _)| *number).collect();
    // 2 is not among the stored cases, since it takes 16,777,217 bytes.
    let expected = BTreeSet::from([0, 1, 3, 4, 5, 6, 7, 8, 21, 23, 44, 45]);
    assert_eq!(numbers, expected);
    for number in [0, 21, 23, 44, 45] {
        assert!((1..=3).all(|abi| told.iter().any(|&(on, told, _)| (on, told) == (abi, number))), "{number}: {told:?}");
    }
}

#[test]
fn the_walks_of_document_01_are_answered() {
    let folder = Folder::of("walks");
    let mut stack = [0; 64];
    stack[..3].copy_from_slice(&[0x08, 0x10, 0x40]);
    folder.put("S", &S);
    folder.put("stack", &stack);
    folder.put("shorter", &stack[..63]);
    let from = |command, stack, last| [command, "S", "400000", stack, "7000", "401044", "7000", "7030", "0", last];
    let caller = "caller:\nPC  0000000000401008\nSP  0000000000007008\nFP  0000000000007030\nLR  0000000000000000\n";
    folder.answers(&from("caller", "stack", "1"), caller);
    let head = "frame  PC                CFA               RA                FP\n";
    let first = format!("{head}    0  0000000000401044  0000000000007008  0000000000401008  0000000000007030\n");
    let second = format!("{first}    1  0000000000401008  0000000000007040  0000000000000000  0000000000000000\n");
    let whole = format!("{second}frames: 2\nended: 30, RA is 0: the outermost frame\n");
    // A limit is decimal: 0x256 would be too high.
    for limit in ["2", "256", "0000000000000000002"] {
        folder.answers(&from("trace", "stack", limit), &whole);
    }
    for limit in ["0", "0000000000000000000"] {
        folder.answers(&from("trace", "stack", limit), &format!("{whole}limit in force: 128\n"));
    }
    folder.answers(&from("trace", "stack", "1"), &format!("{first}frames: 1\nended: 31, the limit is full\n"));
    let ended = "frames: 1\nended: 28, a needed word is not wholly inside the stack window\nat PC: 0000000000401008\n";
    folder.answers(&from("trace", "shorter", "2"), &format!("{first}{ended}"));
    let high = [("257", "257"), ("00000000000000000000257", "257"), ("9999999999999999999", "9999999999999999999")];
    for (limit, understood) in high {
        let refused = format!("refused: 42, the limit is above 256\nlimit given: {understood}\n");
        folder.answers(&from("trace", "stack", limit), &refused);
    }
}

// By hand too: a function of AArch64 whose only row is signed, which calls itself. Its outermost frame has a signature
// for RA and nothing else.
#[test]
fn a_mask_is_taken_and_may_be_left_out() {
    let folder = Folder::of("masks");
    let row = Row { signed: true, ..Row::new(0, 0, &[16, -8, -16]) };
    let mut section = Section::new(Machine::Aarch64);
    section.functions = vec![Function::new(0x1000, 0x20, 0, vec![row])];
    folder.put("signed", &section.bytes());
    let stack: [u64; 4] = [0x7f00_0000_0000_7020, 0x002a_0000_0040_1008, 0, 0x0055_0000_0000_0000];
    folder.put("stack", &stack.map(u64::to_le_bytes).concat());
    let from = |command, last| [command, "signed", "400000", "stack", "7000", "401004", "7000", "0", "5", last];
    let with = |command, last, mask| [&from(command, last)[..], &[mask]].concat();
    let caller = "caller:\nPC  0000000000401008\nSP  0000000000007010\nFP  7f00000000007020\nLR  0000000000000005\n";
    let head = "frame  PC                CFA               RA                FP\n";
    let first = "    0  0000000000401004  0000000000007010  0000000000401008  7f00000000007020\n";
    let second = "    1  0000000000401008  0000000000007020  0000000000000000  0000000000000000\n";
    let whole = format!("{head}{first}{second}frames: 2\nended: 30, RA is 0: the outermost frame\n");
    for mask in ["7f000000000000", "0x007F000000000000", "ffff000000000000"] {
        folder.answers(&with("caller", "1", mask), caller);
        folder.answers(&with("trace", "2", mask), &whole);
    }
    let signed = "24, the return address is signed, and no mask says by which bits\n";
    folder.answers(&from("caller", "1"), &format!("refused: {signed}"));
    let met = "at PC: 0000000000401004\n";
    folder.answers(&from("trace", "2"), &format!("frames: 0\nended: {signed}{met}"));
    for none in ["0", "0x0", "0000000000000000"] {
        folder.answers(&with("caller", "1", none), &format!("refused: {signed}"));
        folder.answers(&with("trace", "2", none), &format!("frames: 0\nended: {signed}{met}"));
    }
}

// One walk of every mask and every ending of a trace in each machine's stored cases of signed rows.
#[test]
fn every_mask_is_taken() {
    let folder = Folder::of("signed");
    let mut told = BTreeSet::new();
    for case in cases::all().iter().filter(|case| case.name.starts_with("ok_walk_signed")) {
        for (one, walked) in &case.walks {
            if told.insert((case.section[4], one.process.mask, walked.traced.ending.number())) {
                walk(&folder, &case.section, one);
            }
        }
    }
    let told_with = |abi, mask, ending| told.contains(&(abi, mask, ending));
    assert!((1..=2).all(|abi| told_with(abi, 0, 24) && told_with(abi, u64::MAX, 30)), "{told:x?}");
    assert!((1..=3).all(|abi| told_with(abi, 0x7f << 48, 21) && told_with(abi, 0x7f << 48, 30)), "{told:x?}");
    assert!((1..=3).all(|abi| told.iter().filter(|(on, _, _)| *on == abi).count() >= 12), "{told:x?}");
}

fn case_named<'a>(cases: &'a [Case], name: &str) -> &'a Case {
    cases.iter().find(|case| case.name == name).unwrap_or_else(|| panic!("no case {name}"))
}

#[test]
fn the_cases_of_document_01_are_answered() {
    let folder = Folder::of("cases");
    let cases = cases::all();
    for name in ["K1_S", "K2_S_77_bytes", "K3_S_27_bytes", "K8_S_second_start_101f", "K9_S_second_start_101f_unsorted"]
    {
        let case = case_named(&cases, name);
        check(&folder, &case.section);
        case.questions.iter().take(24).for_each(|asked| lookup(&folder, &case.section, asked.address, asked.pc));
        case.questions.iter().take(24).for_each(|asked| ask(&folder, &case.section, asked.address, asked.pc));
        case.walks.iter().for_each(|(one, _)| walk(&folder, &case.section, one));
    }
    for name in ["examples_aarch64", "examples_aarch64be"] {
        let case = case_named(&cases, name);
        case.walks.iter().for_each(|(one, _)| walk(&folder, &case.section, one));
    }
}

// With 21 and 23 what was looked up, with the mark and without; and that there was nothing to look up.
#[test]
fn what_was_looked_up_is_told() {
    let folder = Folder::of("looked_up");
    let cases = cases::all();
    let names = ["ok_S_as_it_is", "ok_S_late", "ok_S_below", "ok_last_calls_amd64", "ok_last_calls_aarch64"];
    let walks = names.map(|name| case_named(&cases, name)).into_iter().flat_map(|case| &case.walks);
    let told: String = walks.map(|(_, walked)| words::step(&walked.step)).collect();
    assert!(["looked up: 0000000000401020", "looked up: nothing"].iter().all(|line| told.contains(line)), "{told}");
    for case in names.map(|name| case_named(&cases, name)) {
        case.walks.iter().for_each(|(one, _)| walk(&folder, &case.section, one));
    }
}

// The first case of every number that a section is refused with; 2 is not among the stored cases.
#[test]
fn every_refusal_of_a_section_is_told() {
    let folder = Folder::of("refused");
    let mut told = BTreeSet::new();
    for case in cases::all() {
        let Verdict::Refused { number, .. } = case.expected else { continue };
        let Some((first, _)) = case.walks.first() else { continue };
        if told.insert(number) {
            check(&folder, &case.section);
            lookup(&folder, &case.section, ADDRESS, ADDRESS);
            ask(&folder, &case.section, ADDRESS, ADDRESS);
            walk(&folder, &case.section, first);
        }
    }
    assert_eq!(told, [1].into_iter().chain(3..=15).collect());
}

/// What tells the lines of one answer from those of another.
fn kind_of(outcome: &Outcome) -> String {
    let Outcome::Found { row, .. } = outcome else {
        return format!("{outcome:?}").split(' ').next().unwrap_or_default().to_string();
    };
    let place = |place| if place == Place::Register { "register" } else { "offset" };
    let base = if row.base == Base::Sp { "SP" } else { "FP" };
    let sign = if row.cfa_offset < 0 { "-" } else { "+" };
    format!("{base}{sign} RA {} FP {} signed {}", place(row.ra), place(row.fp), row.signed)
}

// One lookup of every kind in each machine's stored cases, those of the corpus first.
#[test]
fn every_kind_of_answer_is_told() {
    let folder = Folder::of("kinds");
    let mut told = BTreeSet::new();
    for case in cases::all().iter().filter(|case| case.expected == Verdict::Accepted) {
        for asked in &case.questions {
            if told.insert((case.section[4], kind_of(&asked.expected.outcome))) {
                lookup(&folder, &case.section, asked.address, asked.pc);
            }
        }
    }
    for kind in ["NoFunction", "Disputed", "NoRow", "SP+ RA offset FP register signed false"] {
        assert!((1..=3).all(|abi| told.contains(&(abi, kind.to_string()))), "{kind} is told of every machine");
    }
    for kind in ["SP+ RA register FP register signed false", "SP+ RA offset FP offset signed true"] {
        assert!((1..=2).all(|abi| told.contains(&(abi, kind.to_string()))), "{kind} is told of AArch64");
    }
    assert!(told.iter().any(|(_, kind)| kind.starts_with("SP-")) && told.len() >= 20, "{told:?}");
}

// One walk of every pair of a step's number and a trace's in each machine's stored cases, and those of the corpus.
#[test]
fn every_ending_is_told() {
    let folder = Folder::of("endings");
    let (mut told, mut numbers) = (BTreeSet::new(), BTreeSet::new());
    let corpus = CORPUS_VERDICTS.map(|(name, _)| name);
    for case in cases::all().iter().filter(|case| case.expected == Verdict::Accepted) {
        for (one, walked) in &case.walks {
            let ends = (walked.step.number(), walked.traced.ending.number());
            if told.insert((case.section[4], ends)) || corpus.contains(&case.name.as_str()) {
                walk(&folder, &case.section, one);
                numbers.extend([ends.0, ends.1]);
            }
        }
    }
    // 43 is told of none: the program's own buffer has room for every limit.
    let expected = BTreeSet::from([0, 21, 22, 23, 24, 25, 26, 27, 28, 30, 31, 41, 42]);
    assert!(numbers.is_superset(&expected), "{numbers:?}");
}

/// S, with unused row bytes behind it up to so many bytes: it is accepted only where the whole file was read.
fn section_of(bytes: usize) -> Vec<u8> {
    let mut section = vec![0; bytes];
    section[..78].copy_from_slice(&S);
    section[16..20].copy_from_slice(&(bytes as u32 - 68).to_le_bytes());
    let accepted = reader::check(&section) == Verdict::Accepted;
    assert_eq!(accepted, bytes <= MOST_BYTES);
    section
}

const ACCEPTED: &str = "accepted: AMD64, 2 functions, 3 rows, sorted\n";

/// The usual stack, and one that has room for the longest files.
const USUAL_KILOBYTES: u64 = 8_192;
const MANY_KILOBYTES: u64 = 49_152;

// The rooms are of four sizes: a file that fills one, and one that is a byte longer.
#[test]
fn a_section_is_read_up_to_its_most_bytes() {
    let folder = Folder::of("section");
    check(&folder, &[]);
    for most in [65_536, 1_048_576, USUAL_SECTION_BYTES] {
        for bytes in [most - 1, most, most + 1] {
            folder.put("section", &section_of(bytes));
            let said = folder.run_with_stack(MANY_KILOBYTES, &["check", "section"]);
            assert_eq!(said, (ACCEPTED.to_string(), String::new()), "{bytes}");
        }
    }
    folder.put("section", &section_of(USUAL_SECTION_BYTES));
    assert_eq!(folder.run_with_stack(USUAL_KILOBYTES, &["check", "section"]).0, ACCEPTED);
    folder.put("section", &section_of(USUAL_SECTION_BYTES + 1));
    let too_long = (String::new(), wrong::too_long("section", USUAL_SECTION_BYTES));
    for command in [&["check", "section"][..], &["list", "section"], &["lookup", "section", "0", "0"]] {
        assert_eq!(folder.run_with_stack(USUAL_KILOBYTES, command), too_long, "{command:?}");
    }
    let rest = [&["ask", "section", "0", "0"][..], &["why", "section", "0", "0"]];
    rest.iter().for_each(|command| assert_eq!(folder.run_with_stack(USUAL_KILOBYTES, command), too_long));
}

// A file that is longer than a section may be is refused by the rule that says so, whatever its length is.
#[test]
fn a_section_of_the_most_bytes_is_read_and_a_longer_one_refused() {
    let folder = Folder::of("longest");
    folder.put("section", &section_of(MOST_BYTES));
    let said = |command: &[&str]| folder.run_with_stack(MANY_KILOBYTES, command);
    assert_eq!(said(&["check", "section"]).0, ACCEPTED);
    let two = "refused: 2, more than 16,777,216 bytes\n";
    for longer in [1, 5_000_000] {
        folder.put("section", &section_of(MOST_BYTES + longer)[..]);
        assert_eq!(said(&["check", "section"]), (two.to_string(), String::new()));
    }
    assert_eq!(said(&["lookup", "section", "0", "0"]).0, format!("{two}entries compared: 0\n"));
    assert_eq!(said(&["ask", "section", "0", "0"]).0, format!("{two}entries compared: 0\n"));
}

/// K10 at the very end of a window of so many bytes.
fn deep(bytes: usize) -> Walk {
    let cases = cases::all();
    let mut deep = case_named(&cases, "K1_S").walks[0].0.clone();
    let begin = 0x7fff_0000_0000;
    let moved = begin + (bytes - deep.stack.len()) as u64 - deep.process.stack;
    (deep.registers.sp, deep.registers.fp) = (deep.registers.sp + moved, deep.registers.fp + moved);
    deep.stack.splice(0..0, vec![0; bytes - deep.stack.len()]);
    deep.process.stack = begin;
    assert_eq!(deep.by_reader(&S).traced.frames, 2);
    deep
}

/// The standard output and standard error of a trace of such a walk in S, on a stack of so many kilobytes.
fn traced_with(folder: &Folder, kilobytes: u64, section: &[u8], walk: &Walk) -> (String, String) {
    folder.put("S", section);
    folder.put("stack", &walk.stack);
    let Walk { process, registers, .. } = walk;
    let numbers = [process.stack, registers.pc, registers.sp, registers.fp, registers.lr].map(|n| format!("{n:x}"));
    let [stack, pc, sp, fp, lr] = numbers.each_ref().map(String::as_str);
    let address = format!("{:x}", process.section);
    folder.run_with_stack(kilobytes, &["trace", "S", &address, "stack", stack, pc, sp, fp, lr, "2"])
}

#[test]
fn a_stack_is_read_up_to_its_most_bytes() {
    let folder = Folder::of("stack");
    for bytes in [65_536, 65_537, USUAL_STACK_BYTES] {
        walk(&folder, &S, &deep(bytes));
    }
    for (kilobytes, most) in [(USUAL_KILOBYTES, USUAL_STACK_BYTES), (MANY_KILOBYTES, MOST_BYTES)] {
        // Both files as long as they may be on such a stack.
        let section = section_of(if most == MOST_BYTES { most } else { USUAL_SECTION_BYTES });
        let longest = deep(most);
        let expected = words::trace(longest.registers.pc, 2, &longest.by_reader(&section));
        assert_eq!(traced_with(&folder, kilobytes, &section, &longest), (expected, String::new()));
        let too_long = (String::new(), wrong::too_long("stack", most));
        assert_eq!(traced_with(&folder, kilobytes, &section, &deep(most + 1)), too_long);
    }
}

// From next to nothing to more than the usual: the program answers, or says that there is no room, and is never killed.
#[test]
fn no_stack_limit_kills_the_program() {
    let folder = Folder::of("limits");
    folder.put("small", &S);
    folder.put("large", &section_of(2_000_000));
    let k10 = deep(64);
    let mut told = BTreeSet::new();
    for kilobytes in (150..1_000).step_by(25).chain((1_000..9_000).step_by(250)) {
        let no_room = wrong::no_room(1_024 * kilobytes);
        let said = folder.run_with_stack(kilobytes, &["check", "small"]);
        assert!(said == (ACCEPTED.to_string(), String::new()) || said.1 == no_room, "{kilobytes}: {said:?}");
        told.insert(said.1.is_empty());
        let (out, err) = folder.run_with_stack(kilobytes, &["check", "large"]);
        let too_long = |most| err == wrong::too_long("large", most);
        assert!(out == ACCEPTED || err == no_room || too_long(65_536) || too_long(1_048_576), "{kilobytes}: {err}");
        let (out, err) = traced_with(&folder, kilobytes, &S, &k10);
        assert!(out.contains("\nframes: 2\n") || err == no_room, "{kilobytes}: {out}{err}");
    }
    assert_eq!(told.len(), 2, "both are met");
    assert_eq!(folder.run_with_stack(7_150, &["check", "small"]).0, ACCEPTED);
}

#[test]
fn a_wrong_command_is_told() {
    let folder = Folder::of("commands");
    folder.put("S", &S);
    folder.refuses(&[], &wrong::no_command());
    folder.refuses(&["foo", "S"], &wrong::unknown("foo"));
    for command in ["foo", "", "Check", "checks", "-H", "--hel", "-", "S", "a\u{1b}[31m\n\\"] {
        folder.refuses(&[command], &wrong::unknown(command));
    }
}

#[test]
fn a_wrong_count_is_told() {
    let folder = Folder::of("counts");
    for (command, takes) in COMMANDS {
        let taken: Vec<RangeInclusive<usize>> = forms(takes).map(counts_of).collect();
        // Nothing of them is looked at: neither is a file, nor a number.
        let refuses = |count| folder.refuses(&[&[command][..], &vec!["?"; count]].concat(), &wrong::count(command));
        let beside = taken.iter().flat_map(|counts| [counts.start().saturating_sub(1), counts.end().saturating_add(1)]);
        let others = beside.chain([0, 20]).filter(|count| !taken.iter().any(|counts| counts.contains(count)));
        others.filter(|count| *count <= 20).for_each(refuses);
    }
}

// Each command with each form of what it takes.
fn every_form() -> impl Iterator<Item = (&'static str, &'static str)> {
    COMMANDS.into_iter().flat_map(|(command, takes)| forms(takes).map(move |form| (command, form)))
}

// How many arguments a form has, with what may be left out and without, and with what may be repeated.
fn counts_of(form: &str) -> RangeInclusive<usize> {
    let all = form.split_whitespace().count();
    all - form.matches('[').count()..=if form.ends_with("...") { usize::MAX } else { all }
}

const NO_HEXADECIMAL: [&str; 11] =
    ["", "xyz", "0x", "0X", "12345678123456781", "0x012345678123456781", "-1", "+1", "1 ", "0x0x1", "1\u{1b}"];

// 20 digits are too many, whatever they come to, unless zeros stand in front.
const NO_DECIMAL: [&str; 11] =
    ["", "xyz", "0x10", "ff", "1f", "12345678901234567890", "-1", "+1", "1 ", "1.0", "0\u{7}"];

// Every number of every command, all other arguments being right.
#[test]
fn a_wrong_number_is_told() {
    let folder = Folder::of("numbers");
    folder.put("FILE", &S);
    folder.put("STACK", &[0; 8]);
    for (command, form) in every_form() {
        let names: Vec<&str> = form.split(' ').map(|name| name.trim_matches(['[', ']', '.'])).collect();
        let numbers = (0..names.len()).filter(|&place| !["FILE", "STACK", "COMMAND", ""].contains(&names[place]));
        numbers.for_each(|place| wrong_numbers_at(&folder, command, &names, place));
    }
}

fn wrong_numbers_at(folder: &Folder, command: &str, names: &[&str], place: usize) {
    let wrong_ones = if DECIMAL.contains(&names[place]) { &NO_DECIMAL[..] } else { &NO_HEXADECIMAL };
    for given in wrong_ones {
        let right = names.iter().map(|name| if ["FILE", "STACK"].contains(name) { name } else { "1" });
        let mut arguments: Vec<&str> = [command].into_iter().chain(right).collect();
        arguments[1 + place] = given;
        folder.refuses(&arguments, &wrong::number(names[place], given));
    }
}

#[test]
fn a_wrong_file_is_told() {
    let folder = Folder::of("files");
    folder.put("S", &S);
    fs::create_dir(folder.path().join("somedirectory")).expect("a folder in the temporary one");
    for (file, said) in [("nofile", wrong::missing("nofile")), ("somedirectory", wrong::directory("somedirectory"))] {
        folder.refuses(&["check", file], &said);
        folder.refuses(&["list", file], &said);
        folder.refuses(&["list", file, "0"], &said);
        folder.refuses(&["lookup", file, "0", "0"], &said);
        folder.refuses(&["ask", file, "0", "0"], &said);
        folder.refuses(&["why", file, "0", "0"], &said);
        folder.refuses(&with_mask(walk_of("why", file, "S")), &said);
        folder.refuses(&with_mask(walk_of("why", "S", file)), &said);
        folder.refuses(&walk_of("caller", file, "S"), &said);
        folder.refuses(&walk_of("caller", "S", file), &said);
        folder.refuses(&walk_of("trace", file, "S"), &said);
        folder.refuses(&walk_of("trace", "S", file), &said);
    }
}

#[test]
fn a_stack_of_too_many_bytes_is_told() {
    let folder = Folder::of("long");
    folder.put("S", &S);
    folder.put("long", &vec![0; MOST_BYTES + 1]);
    let said = (String::new(), wrong::too_long("long", MOST_BYTES));
    for walk in [walk_of("caller", "S", "long").to_vec(), with_mask(walk_of("why", "S", "long"))] {
        assert_eq!(folder.run_with_stack(MANY_KILOBYTES, &walk), said, "{walk:?}");
    }
}

fn walk_of<'a>(command: &'a str, section: &'a str, stack: &'a str) -> [&'a str; 10] {
    [command, section, "0", stack, "0", "0", "0", "0", "0", "0"]
}

fn with_mask(walk: [&str; 10]) -> Vec<&str> {
    [&walk[..], &["0"]].concat()
}

// Of several wrong arguments the leftmost is told, behind the count of them all.
#[test]
fn the_leftmost_wrong_argument_is_told() {
    let folder = Folder::of("order");
    folder.put("S", &S);
    folder.refuses(&["list", "nofile", "xyz"], &wrong::missing("nofile"));
    folder.refuses(&["lookup", "nofile", "xyz"], &wrong::count("lookup"));
    folder.refuses(&["lookup", "nofile", "xyz", "zzz"], &wrong::missing("nofile"));
    folder.refuses(&["lookup", "S", "0", "1", "zzz", "yyy"], &wrong::number("PC", "zzz"));
    folder.refuses(&["lookup", "S", "xyz", "zzz"], &wrong::number("ADDRESS", "xyz"));
    folder.refuses(&["ask", "nofile", "xyz", "zzz"], &wrong::missing("nofile"));
    folder.refuses(&["ask", "S", "xyz", "zzz"], &wrong::number("ADDRESS", "xyz"));
    folder.refuses(&["why", "nofile", "xyz"], &wrong::count("why"));
    folder.refuses(&["why", "nofile", "xyz", "zzz"], &wrong::missing("nofile"));
    folder.refuses(&["why", "S", "xyz", "zzz"], &wrong::number("ADDRESS", "xyz"));
    folder.refuses(&["why", "S", "0", "nofile", "", "", "", "", "", "", ""], &wrong::missing("nofile"));
    folder.refuses(&["why", "S", "0", "S", "0", "0", "0", "0", "0", "0", "t"], &wrong::number("MASK", "t"));
    folder.refuses(&["trace", "S", "xyz", "nofile", "", "", "", "", "", ""], &wrong::number("ADDRESS", "xyz"));
    folder.refuses(&["trace", "S", "0", "nofile", "", "", "", "", "", ""], &wrong::missing("nofile"));
    folder.refuses(&["caller", "S", "0", "S", "0", "0", "0", "q", "r", "s"], &wrong::number("FP", "q"));
    folder.refuses(&["trace", "S", "0", "S", "0", "0", "0", "0", "r", "0x1"], &wrong::number("LR", "r"));
    folder.refuses(&["trace", "S", "0", "S", "0", "0", "0", "0", "0", "0x1"], &wrong::number("LIMIT", "0x1"));
    folder.refuses(&["trace", "S", "0", "S", "0", "0", "0", "0", "0", "0x1", "t"], &wrong::number("LIMIT", "0x1"));
    folder.refuses(&["caller", "S", "0", "S", "0", "0", "0", "0", "0", "1", "t"], &wrong::number("MASK", "t"));
}

#[test]
fn help_lists_every_command() {
    let folder = Folder::of("help");
    let (out, err) = folder.run(&["help"]);
    assert_eq!(err, "");
    for (command, form) in every_form() {
        let form = format!("sframe {command} {form}");
        assert!(out.lines().any(|line| line.trim() == form.trim() || line.contains(&form)), "{form}\n{out}");
    }
    let told_of_counts = out.replace("hexadecimal", "").contains("decimal");
    assert!(out.contains("hexadecimal") && told_of_counts, "{out}");
    assert!(out.lines().count() >= 2 * COMMANDS.len(), "{out}");
    let mut said = out.lines().skip_while(|line| !line.starts_with("A caller looks up PC with the mark and "));
    assert_eq!(said.nth(1), Some(OF_THE_MASK), "{out}");
    let lines: Vec<&str> = out.lines().skip_while(|line| !line.starts_with("sframe lookup ")).collect();
    assert_eq!(lines[2..4], ["sframe ask FILE ADDRESS PC...", OF_ASKING], "{out}");
    let of_a_step = "sframe why FILE ADDRESS STACK STACK_ADDRESS PC SP FP LR FIRST MASK";
    assert_eq!(lines[4..7], ["sframe why FILE ADDRESS PC", of_a_step, OF_WHY], "{out}");
    assert!(out.lines().any(|line| line.contains(&format!("up to 256, and 0 stands for {USUAL_FRAMES}."))), "{out}");
}

const OF_ASKING: &str = "    the same without a check of the whole section: only what the answer needs is read";

const OF_WHY: &str = "    why a lookup or a caller comes to its answer, in numbers that can be checked by hand";

const OF_THE_MASK: &str = concat!(
    "MASK has the bits of a signature, which are cleared from a signed RA (AArch64); ",
    "left out it is 0: no such RA is taken."
);

// ---- the version

/// What a text says behind `begin` in the first of its lines that begins so, up to `end`.
fn said_in(text: &str, begin: &str, end: char) -> Option<String> {
    let rest = text.lines().find_map(|line| line.strip_prefix(begin))?;
    rest.split(end).next().map(str::to_string)
}

/// The pkg-config file that `make install` writes.
fn pkg_config_file() -> String {
    let mut make = Command::new("make");
    // What a make above this test was told is not for this one.
    make.args(["-s", "--no-print-directory", "pc"]).current_dir(in_repository("")).env_remove("MAKEFLAGS");
    let made = make.output().expect("make starts");
    assert!(made.status.success(), "make pc: {}", text(made.stderr));
    text(made.stdout)
}

/// The version as each place says it where a person may look; the first is where it is decided.
fn versions(printed: &str) -> [(&'static str, Option<String>); 5] {
    let read = |path: &str| fs::read_to_string(in_repository(path)).unwrap_or_else(|error| panic!("{path}: {error}"));
    [
        ("bindings/rust/Cargo.toml", said_in(&read("bindings/rust/Cargo.toml"), "version = \"", '"')),
        ("include/suntimpani.h", said_in(&read("include/suntimpani.h"), "#define SUNTIMPANI_VERSION \"", '"')),
        ("the newest heading of CHANGELOG.md", said_in(&read("CHANGELOG.md"), "## ", ',')),
        ("suntimpani.pc", said_in(&pkg_config_file(), "Version: ", '\n')),
        ("sframe version", said_in(printed, "sframe ", '\n')),
    ]
}

/// The places that do not say what the first one says, or say nothing.
fn disagreeing<'a>(versions: &[(&'a str, Option<String>)]) -> Vec<&'a str> {
    let differs = |said: &Option<String>| said.is_none() || *said != versions[0].1;
    versions.iter().filter(|(_, said)| differs(said)).map(|(place, _)| *place).collect()
}

#[test]
fn every_place_says_the_same_version() {
    let folder = Folder::of("version");
    let (printed, _) = folder.run(&["version"]);
    let versions = versions(&printed);
    assert_eq!(disagreeing(&versions), [""; 0], "{versions:?}");
    let version = versions[0].1.as_deref().expect("a version");
    folder.answers(&["version"], &format!("sframe {version}\n"));
    let parts: Vec<Result<u32, _>> = version.split('.').map(str::parse).collect();
    assert!(parts.len() == 3 && parts.iter().all(Result::is_ok), "{version} is not three numbers");
}

#[test]
fn a_version_that_differs_is_found() {
    let newest = |text| said_in(text, "## ", ',');
    assert_eq!(newest("# Changes\n\n## 1.2.3, today\n\n## 1.2.2, before\n").as_deref(), Some("1.2.3"));
    assert_eq!(newest("# Changes\n"), None);
    let said = |version: &str| Some(version.to_string());
    assert_eq!(disagreeing(&[("a", said("1.2.3")), ("b", said("1.2.3"))]), [""; 0]);
    assert_eq!(disagreeing(&[("a", said("1.2.3")), ("b", said("1.2.4")), ("c", None)]), ["b", "c"]);
    assert_eq!(disagreeing(&[("a", None), ("b", said("1.2.3"))]), ["a", "b"]);
}
