//! K1 to K12 of document 01 and its examples on AArch64, through the safe surface; signed return addresses under masks;
//! and every number by its words.

use suntimpani::example::SECTION_S as S;
use suntimpani::{check, frames, lookup, trace};
use suntimpani::{Answer, Base, Ending, Frame, Outcome, Place, Process, Refusal, Registers, Row, Rule};
use suntimpani::{Step, Traced, Unsound, Verdict, USUAL_LIMIT, USUAL_WORDS};

const ADDRESS: u64 = 0x40_0000;
const PROCESS: Process = Process { section_address: ADDRESS, stack_address: 0x7000, mask: 0 };
const CRASH: Registers = Registers { pc: 0x40_1044, sp: 0x7000, fp: 0x7030, lr: 0x5555, first: true };

const ENTERED: Row =
    Row { start: 0, base: Base::Sp, cfa: 8, ra: Place::AtOffset(-8), fp: Place::Register, signed: false };
const FRAMED: Row = Row { start: 4, base: Base::Fp, cfa: 16, fp: Place::AtOffset(-16), ..ENTERED };

/// S with the second start 0x101f, under these flags.
fn overlapping(flags: u8) -> [u8; 78] {
    let mut section = S;
    (section[3], section[48]) = (flags, 0x1f);
    section
}

fn stack() -> [u8; 64] {
    let mut stack = [0; 64];
    stack[..8].copy_from_slice(&0x40_1008_u64.to_le_bytes());
    stack
}

fn refused(rule: Rule, index: u64) -> Verdict {
    Verdict::Refused(Unsound { rule, index })
}

fn found(function: u64, number: u64, row: Row, compared: u64) -> Answer {
    Answer { outcome: Outcome::Found { function, number, row }, compared }
}

#[test]
fn k1_to_k3() {
    assert_eq!(check(&S), Verdict::Accepted);
    assert_eq!(check(&S[..77]), refused(Rule::Sizes, 0));
    assert_eq!(check(&S[..27]), refused(Rule::Short, 0));
    assert_eq!(check(&[]), refused(Rule::Short, 0));
}

#[test]
fn k4_to_k7() {
    let at = |pc| lookup(&S, ADDRESS, pc);
    assert_eq!(at(0x40_1003), found(0, 0, ENTERED, 2));
    assert_eq!(at(0x40_1004), found(0, 1, FRAMED, 2));
    assert_eq!(at(0x40_101f), found(0, 1, FRAMED, 2));
    for pc in [0x40_0fff, 0x40_1020, 0x40_103f] {
        assert_eq!(at(pc), Answer { outcome: Outcome::NoFunction, compared: 2 }, "{pc:x}");
    }
    assert_eq!(at(0x40_1040), found(1, 0, ENTERED, 1));
}

#[test]
fn k8_and_k9() {
    let unsound = Unsound { rule: Rule::Sorted, index: 1 };
    assert_eq!(check(&overlapping(1)), Verdict::Refused(unsound));
    let answer = Answer { outcome: Outcome::Unsound(unsound), compared: 0 };
    assert_eq!(lookup(&overlapping(1), ADDRESS, 0x40_101f), answer);
    assert_eq!(check(&overlapping(0)), Verdict::Accepted);
    let answer = Answer { outcome: Outcome::Dispute { first: 0, second: 1 }, compared: 2 };
    assert_eq!(lookup(&overlapping(0), ADDRESS, 0x40_101f), answer);
}

#[test]
fn k10_to_k12() {
    let walk = |stack: &[u8], limit| {
        let mut words = [9; 6];
        (trace(&S, stack, PROCESS, CRASH, limit, &mut words), words)
    };
    let one = [0x7008, 0x40_1008, 0x7030, 9, 9, 9];
    let two = [0x7008, 0x40_1008, 0x7030, 0x7040, 0, 0];
    assert_eq!(walk(&stack(), 2), (Traced { frames: 2, ending: Ending::Outermost }, two));
    assert_eq!(walk(&stack(), 1), (Traced { frames: 1, ending: Ending::Full }, one));
    let outside = Ending::Refused(Refusal::WordOutside);
    assert_eq!(walk(&stack()[..63], 2), (Traced { frames: 1, ending: outside }, one));
    let all: Vec<Frame> = frames(&two, 2).collect();
    assert_eq!(all, [Frame { cfa: 0x7008, ra: 0x40_1008, fp: 0x7030 }, Frame { cfa: 0x7040, ra: 0, fp: 0 }]);
    assert_eq!(frames(&two, u64::MAX).count(), 2);
}

#[test]
fn traces_that_are_refused_write_nothing() {
    let refused = |section: &[u8], process: Process, limit, words: usize| {
        let mut buffer = vec![9; words];
        let traced = trace(section, &stack(), process, CRASH, limit, &mut buffer);
        assert!(traced.frames == 0 && buffer.iter().all(|&word| word == 9));
        traced.ending
    };
    let high = Process { stack_address: u64::MAX, ..PROCESS };
    assert_eq!(refused(&S, high, 257, 0), Ending::Refused(Refusal::Window));
    assert_eq!(refused(&S, PROCESS, 257, 0), Ending::Refused(Refusal::LimitAbove));
    assert_eq!(refused(&S, PROCESS, 64, 191), Ending::Refused(Refusal::TooFewWords));
    assert_eq!(refused(&overlapping(1), PROCESS, 64, 192), Ending::Unsound(Unsound { rule: Rule::Sorted, index: 1 }));
    // Limit 0 asks for the words of the usual limit: what it asked for before is not enough.
    for words in [0, 192, USUAL_WORDS - 1] {
        assert_eq!(refused(&S, PROCESS, 0, words), Ending::Refused(Refusal::TooFewWords), "{words}");
    }
}

// The second function of S has called itself.
#[test]
fn the_usual_limit_is_what_0_stands_for() {
    let walk = |calls: usize, limit, words: usize| {
        let stack = vec![0x40_1044_u64.to_le_bytes(); calls];
        let mut buffer = vec![9; words];
        let traced = trace(&S, stack.as_flattened(), PROCESS, CRASH, limit, &mut buffer);
        (traced, buffer)
    };
    assert_eq!((USUAL_LIMIT, USUAL_WORDS), (128, 384));
    for (calls, words) in [(127, 384), (128, 384), (129, 384), (129, 385), (129, 383), (200, 768)] {
        assert_eq!(walk(calls, 0, words), walk(calls, USUAL_LIMIT, words), "{calls} calls, {words} words");
    }
    let (traced, words) = walk(129, 0, USUAL_WORDS + 1);
    assert_eq!(traced, Traced { frames: USUAL_LIMIT, ending: Ending::Full });
    assert_eq!(words[USUAL_WORDS - 3..], [0x7000 + 8 * 128, 0x40_1044, 0x7030, 9]);
    let outside = Ending::Refused(Refusal::WordOutside);
    assert_eq!(walk(127, 0, USUAL_WORDS).0, Traced { frames: 127, ending: outside });
    // Who relied on 64 frames passes 64.
    assert_eq!(walk(129, 64, 192).0, Traced { frames: 64, ending: Ending::Full });
}

#[test]
fn steps() {
    let caller = Registers { pc: 0x40_1008, sp: 0x7008, first: false, ..CRASH };
    assert_eq!(CRASH.step(&S, &stack(), PROCESS), Step::Caller(caller));
    let outermost = Registers { pc: 0, sp: 0x7040, fp: 0, ..caller };
    assert_eq!(caller.step(&S, &stack(), PROCESS), Step::Caller(outermost));
    let no_function = Step::Refused { old: outermost, refusal: Refusal::NoFunction };
    assert_eq!(outermost.step(&S, &stack(), PROCESS), no_function);
    let unsound = Unsound { rule: Rule::Sorted, index: 1 };
    assert_eq!(CRASH.step(&overlapping(1), &stack(), PROCESS), Step::Unsound { old: CRASH, unsound });
}

#[test]
fn last_calls() {
    let mut adjacent = S;
    adjacent[48] = 0x20;
    let stack = [0x7038_u64, 0x40_1044].map(u64::to_le_bytes);
    let step = |section: &[u8], pc, first| {
        let registers = Registers { pc, fp: 0x7000, first, ..CRASH };
        (registers, registers.step(section, stack.as_flattened(), PROCESS))
    };
    let caller = |pc, sp, fp| Step::Caller(Registers { pc, sp, fp, first: false, ..CRASH });
    // The function that ends in the call, and its neighbour.
    assert_eq!(step(&adjacent, 0x40_1020, false).1, caller(0x40_1044, 0x7010, 0x7038));
    assert_eq!(step(&adjacent, 0x40_1020, true).1, caller(0x7038, 0x7008, 0x7000));
    // Nobody stands before the second function, and before PC 0 there is nothing.
    for pc in [0x40_1040, 0] {
        let (old, refused) = step(&S, pc, false);
        assert_eq!(refused, Step::Refused { old, refusal: Refusal::NoFunction });
    }
}

/// AArch64, little-endian, one function of 16 bytes at 0x1000 with three rows: from 0 on SP + 0, from 4 on SP + 16,
/// both with RA in LR, and from 8 on FP + 32 with RA at CFA - 24 and FP at CFA - 32, signed.
#[rustfmt::skip]
const ON_AARCH64: [u8; 59] = [
    0xe2, 0xde, 0x02, 0x01, 0x02, 0x00, 0x00, 0x00, 0x01, 0x00, 0x00, 0x00, 0x03, 0x00, 0x00, 0x00,
    0x0b, 0x00, 0x00, 0x00, 0x00, 0x00, 0x00, 0x00, 0x14, 0x00, 0x00, 0x00,
    0x00, 0x10, 0x00, 0x00, 0x10, 0x00, 0x00, 0x00, 0x00, 0x00, 0x00, 0x00, 0x03, 0x00, 0x00, 0x00,
    0x00, 0x00, 0x00, 0x00,
    0x00, 0x03, 0x00, 0x04, 0x03, 0x10, 0x08, 0x86, 0x20, 0xe8, 0xe0,
];

// "AArch64, first frame, SP base, offset 0: CFA = SP, RA = LR. The same row later: 26. With offset 16 later: 27."
#[test]
fn examples_on_aarch64() {
    let first = Registers { pc: 0x40_1000, lr: 0x40_1005, ..CRASH };
    let later = Registers { pc: 0x40_1001, first: false, ..first };
    let caller = Registers { pc: 0x40_1005, ..later };
    let refused = |old, refusal| Step::Refused { old, refusal };
    assert_eq!(first.step(&ON_AARCH64, &[], PROCESS), Step::Caller(caller));
    assert_eq!(later.step(&ON_AARCH64, &[], PROCESS), refused(later, Refusal::CfaLow));
    assert_eq!(caller.step(&ON_AARCH64, &[], PROCESS), refused(caller, Refusal::RaLost));
    let signed =
        Row { start: 8, base: Base::Fp, cfa: 32, ra: Place::AtOffset(-24), fp: Place::AtOffset(-32), signed: true };
    assert_eq!(lookup(&ON_AARCH64, ADDRESS, 0x40_100f), found(0, 2, signed, 1));
    let in_signed = Registers { pc: 0x40_1008, ..first };
    assert_eq!(in_signed.step(&ON_AARCH64, &[], PROCESS), refused(in_signed, Refusal::Signed));
}

/// The bits from 48 to 54, and a return address with some of them.
const MASK: u64 = 0x007f_0000_0000_0000;
const SIGNED_LR: u64 = 0x0055_0000_0040_1009;

/// ON_AARCH64 with the row from 4 on signed too, which has RA in LR and CFA 16 above SP.
fn signed_leaf() -> [u8; 59] {
    let mut section = ON_AARCH64;
    section[52] |= 0x80;
    section
}

/// FP's word at 0x7030 and RA's at 0x7038, both with bits of the mask.
fn signed_stack() -> [u8; 64] {
    let mut stack = [0; 64];
    stack[48..56].copy_from_slice(&0x0044_0000_0000_7050_u64.to_le_bytes());
    stack[56..].copy_from_slice(&0x002a_0000_0040_1009_u64.to_le_bytes());
    stack
}

// From LR, then from a word of the stack: RA alone is cleared, and LR and the saved FP are as they were.
#[test]
fn signed_steps() {
    let step =
        |registers: Registers, mask| registers.step(&signed_leaf(), &signed_stack(), Process { mask, ..PROCESS });
    let leaf = Registers { pc: 0x40_1004, lr: SIGNED_LR, ..CRASH };
    let caller = Registers { pc: 0x40_1009, sp: 0x7010, first: false, ..leaf };
    let next = Registers { sp: 0x7050, fp: 0x0044_0000_0000_7050, ..caller };
    assert_eq!(step(leaf, MASK), Step::Caller(caller));
    assert_eq!(step(caller, MASK), Step::Caller(next));
    for registers in [leaf, caller] {
        assert_eq!(step(registers, 0), Step::Refused { old: registers, refusal: Refusal::Signed });
    }
    assert_eq!(step(leaf, u64::MAX), Step::Caller(Registers { pc: 0, ..caller }));
    // Neither a row that is not signed nor AMD64 has anything cleared.
    let plain = Registers { pc: 0x40_1000, ..leaf };
    assert_eq!(step(plain, u64::MAX), Step::Caller(Registers { pc: SIGNED_LR, first: false, ..plain }));
    let masked = Process { mask: u64::MAX, ..PROCESS };
    assert_eq!(CRASH.step(&S, &stack(), masked), CRASH.step(&S, &stack(), PROCESS));
}

#[test]
fn signed_traces() {
    let walk = |mask| {
        let (mut words, leaf) = ([9; 6], Registers { pc: 0x40_1004, lr: SIGNED_LR, ..CRASH });
        let process = Process { mask, ..PROCESS };
        (trace(&signed_leaf(), &signed_stack(), process, leaf, 2, &mut words), words)
    };
    let two = [0x7010, 0x40_1009, 0x7030, 0x7050, 0x40_1009, 0x0044_0000_0000_7050];
    assert_eq!(walk(MASK), (Traced { frames: 2, ending: Ending::Full }, two));
    assert_eq!(walk(0), (Traced { frames: 0, ending: Ending::Refused(Refusal::Signed) }, [9; 6]));
    assert_eq!(walk(u64::MAX), (Traced { frames: 1, ending: Ending::Outermost }, [0x7010, 0, 0x7030, 9, 9, 9]));
    // A bit of the signature is left: the address lies in no function.
    let part = [0x7010, 0x0001_0000_0040_1009, 0x7030, 9, 9, 9];
    let nowhere = Ending::Refused(Refusal::NoFunction);
    assert_eq!(walk(MASK - (1 << 48)), (Traced { frames: 1, ending: nowhere }, part));
}

/// Each number has one name, and its words begin with it.
#[test]
fn every_number_has_its_words() {
    for number in 0..=100 {
        let rule = Rule::of(number).map(|rule| (rule.number(), rule.to_string()));
        let refusal = Refusal::of(number).map(|refusal| (refusal.number(), refusal.to_string()));
        let named = match number {
            1..=15 => rule,
            21..=28 | 41..=43 => refusal,
            _ => {
                assert_eq!((rule, refusal), (None, None), "{number}");
                continue;
            }
        };
        let (same, words) = named.unwrap_or_else(|| panic!("{number} has no name"));
        assert_eq!(same, number);
        assert!(words.starts_with(&format!("{number}, ")), "{words}");
    }
    let unsound = Unsound { rule: Rule::RowsRising, index: 0 };
    assert_eq!(unsound.to_string(), "13, a row start is not above the one before it, in function 0");
    assert_eq!(Unsound { rule: Rule::RowSum, index: 0 }.to_string(), Rule::RowSum.to_string());
    assert_eq!(Refusal::Signed.to_string(), "24, the return address is signed, and no mask says by which bits");
}
