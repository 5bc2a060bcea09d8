//! Who called whom, in a crash in the second function of a small section, which the first had called.
use suntimpani::example::SECTION_S;
use suntimpani::{frames, trace, Process, Registers, USUAL_LIMIT, USUAL_WORDS};

fn main() {
    let mut stack = [0; 64];
    stack[..8].copy_from_slice(&0x40_1008_u64.to_le_bytes());
    let process = Process { section_address: 0x40_0000, stack_address: 0x7000, mask: 0 };
    let crash = Registers { pc: 0x40_1044, sp: 0x7000, fp: 0x7030, lr: 0, first: true };
    let mut words = [0; USUAL_WORDS];
    let traced = trace(&SECTION_S, &stack, process, crash, USUAL_LIMIT, &mut words);
    for frame in frames(&words, traced.frames) {
        println!("{:016x} returns to {:016x}", frame.cfa, frame.ra);
    }
    println!("ended: {}", traced.ending);
}
