//! Prints a trace as a table: of a small section, or of files and numbers given as arguments.
//!
//!     cargo run --example trace
//!     cargo run --example trace -- SECTION ADDRESS STACK STACK_ADDRESS PC SP FP LR [MASK]
//!
//! SECTION and STACK are files with raw bytes; numbers are hexadecimal. MASK has the bits that hold the signature of a
//! return address (AArch64); left out it is 0, and a signed one is refused.

use std::process::ExitCode;
use std::{env, fs};
use suntimpani::example::SECTION_S;
use suntimpani::{frames, trace, Process, Registers, USUAL_LIMIT, USUAL_WORDS};

/// All that is lent for a trace.
struct Crash {
    section: Vec<u8>,
    stack: Vec<u8>,
    process: Process,
    registers: Registers,
}

fn main() -> ExitCode {
    let arguments: Vec<String> = env::args().skip(1).collect();
    let crash = match &arguments[..] {
        [] => Ok(small()),
        given => from(given),
    };
    match crash {
        Ok(crash) => {
            print(&crash);
            ExitCode::SUCCESS
        }
        Err(fault) => {
            eprintln!("trace: {fault}");
            ExitCode::FAILURE
        }
    }
}

fn print(crash: &Crash) {
    let mut words = [0; USUAL_WORDS];
    let traced = trace(&crash.section, &crash.stack, crash.process, crash.registers, USUAL_LIMIT, &mut words);
    println!("frame  CFA               RA                FP");
    for (number, frame) in frames(&words, traced.frames).enumerate() {
        println!("{number:>5}  {:016x}  {:016x}  {:016x}", frame.cfa, frame.ra, frame.fp);
    }
    println!("frames: {}", traced.frames);
    println!("ended: {}", traced.ending);
}

// A crash in the second function of section S, which the first called.
fn small() -> Crash {
    let mut stack = vec![0; 64];
    stack[..8].copy_from_slice(&0x40_1008_u64.to_le_bytes());
    Crash {
        section: SECTION_S.to_vec(),
        stack,
        process: Process { section_address: 0x40_0000, stack_address: 0x7000, mask: 0 },
        registers: Registers { pc: 0x40_1044, sp: 0x7000, fp: 0x7030, lr: 0, first: true },
    }
}

fn from(given: &[String]) -> Result<Crash, String> {
    let (given, mask) = match given {
        [given @ .., mask] if given.len() == 8 => (given, number(mask)?),
        given => (given, 0),
    };
    let [section, address, stack, stack_address, pc, sp, fp, lr] = given else {
        return Err("the arguments are SECTION ADDRESS STACK STACK_ADDRESS PC SP FP LR [MASK]".to_string());
    };
    Ok(Crash {
        section: bytes_of(section)?,
        stack: bytes_of(stack)?,
        process: Process { section_address: number(address)?, stack_address: number(stack_address)?, mask },
        registers: Registers { pc: number(pc)?, sp: number(sp)?, fp: number(fp)?, lr: number(lr)?, first: true },
    })
}

fn bytes_of(path: &str) -> Result<Vec<u8>, String> {
    fs::read(path).map_err(|error| format!("{path}: {error}"))
}

fn number(shown: &str) -> Result<u64, String> {
    let digits = shown.strip_prefix("0x").unwrap_or(shown);
    u64::from_str_radix(digits, 16).map_err(|_| format!("'{shown}' is not a hexadecimal number"))
}
