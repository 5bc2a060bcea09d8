//! The pages of vectors/why: what `sframe why` prints of one answer of every kind, below the command that asks for it.
//!
//! Most of what they ask about are sections of public assemblers and recorded crashes; the few that are made for them
//! lie beside them.
#![forbid(unsafe_code)]

use crate::cases::S;
use crate::maker::{Function, Machine, Row, Section};
use crate::reader::{Process, Registers};
use crate::reasons::Record;
use crate::{in_repository, words};
use std::fs;

/// The folder of the pages, in which their commands are run.
pub const FOLDER: &str = "vectors/why";

/// A page: its name, and the arguments behind `sframe why`.
#[derive(Clone, Copy, Debug, PartialEq, Eq)]
pub struct Page(pub &'static str, pub &'static str);

/// Lookups, and then callers, each in the order of what they come to.
pub const PAGES: [Page; 40] = [
    Page("found", "../recorder/section.sframe 559a1c5b0670 559a1c5ad3de"),
    Page("found_without_next_row", "../recorder/section.sframe 559a1c5b0670 559a1c5ad944"),
    Page("found_in_block", "../corpus/sections/amd64_plt_so.sframe 21b8 102e"),
    Page("found_signed_in_lr", "../signed/key_a.sframe 4002b8 4001bc"),
    Page("found_signed_on_stack", "../signed/key_a.sframe 4002b8 400167"),
    Page("section_refused", "../corpus/sections/v1_amd64_hand_o.sframe 1000 1000"),
    Page("section_refused_in_function", "../corpus/sections/amd64_twice_exe.sframe 1000 1000"),
    Page("21", "../recorder/section.sframe 559a1c5b0670 559a1c5ad10c"),
    Page("21_none_below", "../recorder/section.sframe 559a1c5b0670 559a1c5ad01f"),
    Page("21_none_above", "../recorder/section.sframe 559a1c5b0670 7fd92866024a"),
    Page("21_none", "nothing.sframe 1000 1010"),
    Page("21_at_0", "../corpus/sections/amd64_hand_exe.sframe ffffffffffffffff 0"),
    Page("22", "../corpus/sections/amd64_hand_o.sframe 1000 1005"),
    Page("22_more_than_16", "twenty.sframe 1000 1010"),
    Page("23", "late.sframe 1000 1023"),
    Page("23_in_block", "late.sframe 1000 1049"),
    Page("23_without_rows", "late.sframe 1000 1060"),
    Page("caller_41", "s.sframe 400000 k12.stack fffffffffffffff0 401044 7000 7030 0 1 0"),
    Page("caller_section_refused", "../corpus/sections/amd64_twice_exe.sframe 1000 k12.stack 7000 1000 7000 0 0 1 0"),
    Page("caller_nothing_looked_up", "s.sframe 400000 k12.stack 7000 0 7000 7030 0 0 0"),
    Page(
        "caller_21",
        "../recorder/section.sframe 559a1c5b0670 ../recorder/stack.bin 7ffd67744068 7fd92866024a 7ffd677442c0 3 0 0 0",
    ),
    // PC itself is covered, and the PC looked up is not.
    Page("caller_21_before_a_function", "s.sframe 400000 k12.stack 7000 401040 7000 7030 0 0 0"),
    Page("caller_22", "../corpus/sections/amd64_hand_o.sframe 1000 k12.stack 7000 1005 7000 7030 0 1 0"),
    Page("caller_23", "late.sframe 1000 k12.stack 7000 1024 7000 7030 0 0 0"),
    Page(
        "caller_24",
        "../signed/key_a.sframe 4002b8 ../signed/emulator/key_a_leaf/stack.bin 2aab2abdd0 4001bc 2aab2abdd0 \
         2aab2abdf0 15000000400168 1 0",
    ),
    Page("caller_25_below", "odd.sframe 1000 k12.stack 7000 1000 10 7030 0 1 0"),
    Page(
        "caller_25_above",
        "../recorder/section.sframe 559a1c5b0670 ../recorder/stack.bin 7ffd67744068 559a1c5ad3de fffffffffffffff8 0 0 1 0",
    ),
    Page(
        "caller_26_below",
        "../recorder/section.sframe 559a1c5b0670 ../recorder/stack.bin 7ffd67744068 559a1c5ad120 7ffd67744068 0 0 1 0",
    ),
    Page(
        "caller_26_equal",
        "../last_calls/aarch64.sframe 400298 ../last_calls/aarch64_abort/stack.bin 5500800750 4000ea 5500800750 \
         5500800750 40014c 0 0",
    ),
    Page(
        "caller_27",
        "../signed/key_a.sframe 4002b8 ../signed/emulator/key_a_leaf/stack.bin 2aab2abdd0 4001bd 2aab2abdd0 \
         2aab2abdf0 15000000400168 0 ff000000000000",
    ),
    Page("caller_28_ra", "s.sframe 400000 k12.stack 7000 401008 7008 7030 0 0 0"),
    Page("caller_28_ra_below_0", "odd.sframe 1000 k12.stack 7000 1010 0 7030 0 1 0"),
    Page(
        "caller_28_fp",
        "../recorder/section.sframe 559a1c5b0670 ../recorder/stack.bin 7ffd67744068 559a1c5ad1a8 7ffd67744068 \
         7ffd67744110 0 1 0",
    ),
    Page("caller_28_fp_above_2_64", "odd.sframe 1000 top.stack ffffffffffffffe8 1020 fffffffffffffff8 7030 0 1 0"),
    Page(
        "caller",
        "../recorder/section.sframe 559a1c5b0670 ../recorder/stack.bin 7ffd67744068 559a1c5ad3de 7ffd67744068 \
         7ffd67744110 0 1 0",
    ),
    Page(
        "caller_later",
        "../recorder/section.sframe 559a1c5b0670 ../recorder/stack.bin 7ffd67744068 559a1c5ad432 7ffd677440a0 \
         7ffd67744110 0 0 0",
    ),
    Page(
        "caller_of_last_call",
        "../last_calls/amd64.sframe 4020c8 ../last_calls/amd64_abort/stack.bin 7fffffffe6e8 40104b 7fffffffe6f0 \
         7fffffffe730 0 0 0",
    ),
    Page(
        "caller_in_lr",
        "../last_calls/aarch64.sframe 400298 ../last_calls/aarch64_abort/stack.bin 5500800750 4000e8 5500800750 \
         5500800750 40014c 1 0",
    ),
    Page(
        "caller_signed",
        "../signed/key_a.sframe 4002b8 ../signed/emulator/key_a_leaf/stack.bin 2aab2abdd0 4001bc 2aab2abdd0 \
         2aab2abdf0 15000000400168 1 ff000000000000",
    ),
    Page(
        "caller_signed_on_stack",
        "../signed/key_b_big.sframe 4002d0 ../signed/emulator/key_b_big_leaf/stack.bin 2aab2abdc0 400168 2aab2abdd0 \
         2aab2abde0 6000000400168 0 ff000000000000",
    ),
];

impl Page {
    /// Its arguments one by one.
    pub fn arguments(&self) -> Vec<&'static str> {
        self.1.split(' ').collect()
    }

    /// The file of its name.
    pub fn file(&self) -> String {
        format!("{}.txt", self.0)
    }

    /// What it says, by the reader.
    pub fn text(&self) -> String {
        let said = match self.asked() {
            Asked::Lookup { section, address, pc } => words::why_lookup(&section, address, pc),
            Asked::Step(Record { section, stack, process, registers }) => {
                words::why_step(&section, &stack, process, registers)
            }
        };
        format!("$ sframe why {}\n{said}", self.1)
    }

    // What its arguments ask for in the folder of the pages.
    fn asked(&self) -> Asked {
        let number = |given: &str| u64::from_str_radix(given, 16).unwrap_or_else(|error| panic!("{given}: {error}"));
        match self.arguments()[..] {
            [file, address, pc] => Asked::Lookup { section: bytes_of(file), address: number(address), pc: number(pc) },
            [file, address, stack, stack_address, pc, sp, fp, lr, first, mask] => {
                let [pc, sp, fp, lr, first] = [pc, sp, fp, lr, first].map(number);
                let process = Process { section: number(address), stack: number(stack_address), mask: number(mask) };
                let registers = Registers { pc, sp, fp, lr, first };
                Asked::Step(Record { section: bytes_of(file), stack: bytes_of(stack), process, registers })
            }
            _ => panic!("{}: why takes other arguments", self.0),
        }
    }
}

enum Asked {
    Lookup { section: Vec<u8>, address: u64, pc: u64 },
    Step(Record),
}

// A file as it is made, or as it lies in another folder of vectors.
fn bytes_of(path: &str) -> Vec<u8> {
    match path.strip_prefix("../") {
        Some(elsewhere) => {
            let file = in_repository("vectors").join(elsewhere);
            fs::read(&file).unwrap_or_else(|error| panic!("{}: {error}", file.display()))
        }
        None => {
            let made = made().into_iter().find(|(name, _)| *name == path);
            made.unwrap_or_else(|| panic!("{path} is not made")).1
        }
    }
}

/// The sections and stacks that are made for the pages, by their names.
pub fn made() -> [(&'static str, Vec<u8>); 7] {
    let mut k12 = vec![0; 63];
    k12[..3].copy_from_slice(&[0x08, 0x10, 0x40]);
    [
        ("nothing.sframe", Section::new(Machine::Amd64).bytes()),
        ("twenty.sframe", twenty().bytes()),
        ("late.sframe", late().bytes()),
        ("odd.sframe", odd().bytes()),
        ("s.sframe", S.to_vec()),
        ("k12.stack", k12),
        ("top.stack", (1..=24).collect()),
    ]
}

fn section_of(functions: Vec<Function>) -> Section {
    Section { functions, ..Section::new(Machine::Amd64) }
}

// Every other function covers 0x10, and as many as 20 do; the others have size 0.
fn twenty() -> Section {
    let function = |number: i64| {
        let size = if number % 2 == 0 { 0x20 } else { 0 };
        Function::new(0x10 - number / 4, size, 0, Vec::new())
    };
    section_of((0..40).map(function).collect())
}

// Functions without a row at their start: plain, of repeated blocks, and without any row.
fn late() -> Section {
    let rows = || vec![Row::new(4, 0, &[8]), Row::new(9, 0, &[16, -16])];
    let mut functions = vec![
        Function::new(0x20, 16, 0, rows()),
        Function::new(0x30, 48, 0, rows()),
        Function::new(0x60, 1, 0, Vec::new()),
    ];
    (functions[1].repeated, functions[1].repeat) = (true, 12);
    section_of(functions)
}

// Rows that no compiler writes: CFA is SP - 24, SP, and SP with FP saved above it.
fn odd() -> Section {
    let offsets: [&[i32]; 3] = [&[-24], &[0], &[0, 8]];
    let function = |(offsets, number): (&[i32], i64)| Function::new(16 * number, 16, 0, vec![Row::new(0, 0, offsets)]);
    section_of(offsets.into_iter().zip(0..).map(function).collect())
}

#[cfg(test)]
mod tests {
    use super::*;
    use crate::reader::explain_lookup;
    use crate::reasons::Kind;
    use std::collections::BTreeSet;

    #[test]
    fn names_differ() {
        let names: BTreeSet<&str> = PAGES.iter().map(|page| page.0).chain(made().map(|(name, _)| name)).collect();
        assert_eq!(names.len(), PAGES.len() + made().len());
    }

    #[test]
    fn every_kind_has_a_page() {
        let kinds: BTreeSet<Kind> = PAGES
            .iter()
            .map(|page| match page.asked() {
                Asked::Lookup { section, address, pc } => Kind::of_lookup(&explain_lookup(&section, address, pc)),
                Asked::Step(record) => Kind::of_step(&record.step()),
            })
            .collect();
        assert_eq!(kinds, BTreeSet::from(Kind::ALL));
    }

    // The number in a page's name is that of its answer.
    #[test]
    fn every_page_is_what_its_name_says() {
        for page in PAGES {
            let name = page.0.strip_prefix("caller_").unwrap_or(page.0);
            let begin = match name.split('_').next().unwrap_or(name) {
                "found" => "found: ".to_string(),
                "section" => "refused: ".to_string(),
                "nothing" => "refused: 21, ".to_string(),
                number if number.parse::<u64>().is_ok() => format!("refused: {number}, "),
                _ => "caller:".to_string(),
            };
            let text = page.text();
            assert!(text.lines().nth(1).is_some_and(|line| line.starts_with(&begin)), "{}: {begin}\n{text}", page.0);
            assert!(text.lines().count() >= 3 && text.ends_with(")\n"), "{text}");
        }
    }
}
