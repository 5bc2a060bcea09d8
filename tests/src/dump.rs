//! What other tools printed of the sections of the corpus: vectors/corpus/sections/*.txt, read.
//!
//! The dumps all have one form. A function's `pc` is the section's address plus its effective start; a row's STARTPC
//! is the function's pc plus the row's start, or the row's start alone where the head says STARTPC[m], a repeated
//! block.
#![forbid(unsafe_code)]

use crate::cases::CORPUS;
use crate::in_repository;
use crate::reader::{Base, Block, Function, Outcome, Place, Row};
use std::fs;

/// What a dump says of a section.
pub struct Dump {
    pub version: u8,
    pub flags: u8,
    pub fixed_ra: i8,
    pub function_count: u32,
    pub row_count: u32,
    pub functions: Vec<ShownFunction>,
}

pub struct ShownFunction {
    pub pc: i64,
    pub size: u32,
    pub repeated: bool,
    /// It signs by key B; nothing is shown of key A.
    pub key_b: bool,
    /// The rows' lines; those of other versions of the format have words of their own.
    pub rows: Vec<String>,
}

impl Dump {
    /// The dump of a section of the corpus, where it has one.
    ///
    /// # Panics
    /// Where the dump has another form than all others.
    pub fn of(name: &str) -> Option<Dump> {
        let text = fs::read_to_string(in_repository(CORPUS).join(format!("{name}.txt"))).ok()?;
        let value = |label: &str| text.lines().find_map(|line| line.trim().strip_prefix(label).map(str::trim));
        let number = |label: &str| value(label).map(|shown| shown.parse().expect("a number"));
        let version = value("Version: SFRAME_VERSION_").expect("a version");
        Some(Dump {
            version: version.parse().expect("a number"),
            flags: flags_of(value("Flags:").expect("flags")),
            // Shown only where it is not 0.
            fixed_ra: value("CFA fixed RA offset:").map_or(0, |shown| shown.parse().expect("a number")),
            function_count: number("Num FDEs:").expect("a count of functions"),
            row_count: number("Num FREs:").expect("a count of rows"),
            functions: shown_functions(&text),
        })
    }

    // The rows of a function, their starts counted from it.
    fn rows(&self, function: usize) -> Vec<Row> {
        let shown = &self.functions[function];
        let counted_from = if shown.repeated { 0 } else { shown.pc };
        shown.rows.iter().map(|row| shown_row(row, counted_from, self.fixed_ra)).collect()
    }

    /// What a lookup must come to, by what is shown alone. A repeated block is the 16 bytes of an entry of the PLT.
    pub fn outcome(&self, pc: i64) -> Outcome {
        let covers = |shown: &ShownFunction| shown.pc <= pc && pc < shown.pc + i64::from(shown.size);
        let covering: Vec<usize> = (0..self.functions.len()).filter(|&index| covers(&self.functions[index])).collect();
        let function = match covering[..] {
            [] => return Outcome::NoFunction,
            [only] => only,
            [first, second, ..] => return Outcome::Disputed { first: first as u64, second: second as u64 },
        };
        let within = pc - self.functions[function].pc;
        let place = if self.functions[function].repeated { within % 16 } else { within };
        let rows = self.rows(function);
        let begun = rows.iter().filter(|row| i64::from(row.start) <= place).count();
        match begun.checked_sub(1) {
            None => Outcome::NoRow { function: function as u64 },
            Some(number) => Outcome::Found { function: function as u64, number: number as u64, row: rows[number] },
        }
    }

    /// Holds functions against what is shown. A dump does not say how long a repeated block is.
    ///
    /// # Panics
    /// Where the two differ; the name is that of the section.
    pub fn compare(&self, name: &str, found: &[Function]) {
        assert_eq!(found.len(), self.functions.len(), "{name}: functions");
        let address = self.functions[0].pc - found[0].start;
        for (index, (function, shown)) in found.iter().zip(&self.functions).enumerate() {
            assert_eq!(shown.pc - function.start, address, "{name}: the section's address by function {index}");
            assert_eq!(function.size, shown.size, "{name}: size of function {index}");
            assert_eq!(function.block != Block::Plain, shown.repeated, "{name}: block of function {index}");
            assert_eq!(function.rows, self.rows(index), "{name}: rows of function {index}");
        }
    }
}

fn flags_of(shown: &str) -> u8 {
    match shown {
        "NONE" => 0,
        "SFRAME_F_FDE_SORTED" => 1,
        "SFRAME_F_FDE_FUNC_START_PCREL" => 4,
        _ => panic!("no dump was known to show {shown}"),
    }
}

fn shown_functions(text: &str) -> Vec<ShownFunction> {
    let mut shown: Vec<ShownFunction> = Vec::new();
    for line in text.lines().map(str::trim) {
        if let Some(head) = line.strip_prefix("func idx [") {
            let (index, facts) = head.split_once("]: pc = 0x").expect("an index and a pc");
            assert_eq!(index.parse(), Ok(shown.len()), "functions are shown in order");
            shown.push(shown_function(facts));
        } else if let Some(last) = shown.last_mut() {
            match line.split_whitespace().next() {
                None | Some("STARTPC") => {}
                Some("STARTPC[m]") => last.repeated = true,
                Some(_) => last.rows.push(line.to_string()),
            }
        }
    }
    shown
}

// "401000, size = 71 bytes", and for some functions more behind a comma, such as "pauth = B key".
fn shown_function(facts: &str) -> ShownFunction {
    let (pc, rest) = facts.split_once(", size = ").expect("a pc and a size");
    let (size, more) = rest.split_once(" bytes").expect("a size in bytes");
    ShownFunction {
        pc: i64::from_str_radix(pc, 16).expect("a hexadecimal pc"),
        size: size.parse().expect("a decimal size"),
        repeated: false,
        key_b: more.contains("B key"),
        rows: Vec::new(),
    }
}

// "0000000000401004  sp+16     c-16      f", the columns being STARTPC, CFA, FP and RA; a return address that is signed
// has [s] behind it, and f is the machine's fixed place.
fn shown_row(line: &str, counted_from: i64, fixed_ra: i8) -> Row {
    let columns: Vec<&str> = line.split_whitespace().collect();
    let [start, cfa, fp, ra] = columns[..] else { panic!("{line:?} has not four columns") };
    let start = i64::from_str_radix(start, 16).expect("a hexadecimal start") - counted_from;
    let (base, cfa_offset) = match cfa.split_at(2) {
        ("sp", offset) => (Base::Sp, offset),
        ("fp", offset) => (Base::Fp, offset),
        _ => panic!("{cfa} counts from no known register"),
    };
    let (ra, signed) = ra.strip_suffix("[s]").map_or((ra, false), |place| (place, true));
    Row {
        start: start.try_into().expect("a row starts at or after its function"),
        base,
        cfa_offset: cfa_offset.parse().expect("an offset from the base"),
        ra: if ra == "f" { Place::AtOffset(fixed_ra.into()) } else { shown_place(ra) },
        fp: shown_place(fp),
        signed,
    }
}

fn shown_place(shown: &str) -> Place {
    match shown.strip_prefix('c') {
        Some(offset) => Place::AtOffset(offset.parse().expect("an offset from CFA")),
        None => {
            assert_eq!(shown, "u");
            Place::Register
        }
    }
}
