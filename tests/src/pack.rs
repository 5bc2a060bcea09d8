//! The stored form of the cases and of what is expected of each.
//!
//! A case is a head of 66 bytes, the section's bytes, 16 bytes for each question, and the walks. The head is the name
//! padded with spaces to 38, and behind a space each, as 8 decimal digits, the section's length, the number of
//! questions and the number of bytes of all walks, and a newline. A question is the section's address and the PC, each
//! 8 bytes little-endian. A walk is eleven such words: section address, stack address, mask, PC, SP, FP, LR, the mark,
//! the limit, the number of words in the lent buffer and the length of the stack; and then the stack's bytes. Cases
//! follow each other with nothing between, and so do walks.
//!
//! What is expected is text: a line a case, below it a line a question, then for each walk a line of what is lent, one
//! of the step's answer, one of the trace's, and one a frame. A mask is told only where it is not 0. Behind all cases
//! comes what is asked without a check of the whole section: a line for each case that has questions, and below it a
//! line a question.
#![forbid(unsafe_code)]

use crate::reader::{Answer, Asked, Ending, Process, Registers, Step, Traced, Verdict};
use crate::walk::{Walk, Walked};

const NAME_BYTES: usize = 38;
const HEAD_BYTES: usize = 66;
const WALK_BYTES: usize = 88;

/// A pack is smaller than this many bytes.
pub const LIMIT: usize = 2_000_000;

/// The text of what is expected is smaller than this many bytes.
pub const EXPECTED_LIMIT: usize = 2_000_000;

/// A walk's buffer has at most so many words.
pub const MOST_WORDS: usize = 1_000;

/// Whether a name may stand in a pack: 1 to 38 ASCII letters, digits, `_` and `-`.
pub fn is_name(name: &str) -> bool {
    let allowed = |c: char| c.is_ascii_alphanumeric() || c == '_' || c == '-';
    (1..=NAME_BYTES).contains(&name.len()) && name.chars().all(allowed)
}

/// Puts a case at the end of a pack; a question is an address and a PC.
///
/// # Panics
/// Where the name, the length or the number of questions does not fit a head, or a walk's buffer is too long.
pub fn put_case(pack: &mut Vec<u8>, name: &str, section: &[u8], questions: &[(u64, u64)], walks: &[&Walk]) {
    assert!(is_name(name), "{name:?} cannot be the name of a case");
    let walk_bytes: usize = walks.iter().map(|walk| WALK_BYTES + walk.stack.len()).sum();
    let head = format!("{name:<NAME_BYTES$} {:08} {:08} {walk_bytes:08}\n", section.len(), questions.len());
    assert_eq!(head.len(), HEAD_BYTES, "{name} is too long");
    pack.extend(head.as_bytes());
    pack.extend(section);
    for (address, pc) in questions {
        pack.extend(address.to_le_bytes());
        pack.extend(pc.to_le_bytes());
    }
    for walk in walks {
        assert!(walk.words <= MOST_WORDS, "{name} asks {} words of buffer", walk.words);
        put_walk(pack, walk);
    }
}

fn put_walk(pack: &mut Vec<u8>, walk: &Walk) {
    let Registers { pc, sp, fp, lr, first } = walk.registers;
    let Process { section, stack, mask } = walk.process;
    let (words, bytes) = (walk.words as u64, walk.stack.len() as u64);
    for word in [section, stack, mask, pc, sp, fp, lr, first, walk.limit, words, bytes] {
        pack.extend(word.to_le_bytes());
    }
    pack.extend(&walk.stack);
}

/// What is expected of a case's section, as a line of text.
pub fn line(name: &str, verdict: Verdict) -> String {
    format!("{name:<NAME_BYTES$} {verdict}\n")
}

/// What is expected of a question, as a line of text.
pub fn answer_line(address: u64, pc: u64, answer: &Answer) -> String {
    format!("  {address:016x} {pc:016x} {answer}\n")
}

/// The line of a case above what is asked in it without a check of the whole section.
pub fn asked_head(name: &str) -> String {
    format!("{name:<NAME_BYTES$} asked\n")
}

/// What is expected of a question that is asked so, as a line of text.
pub fn asked_line(address: u64, pc: u64, asked: &Asked) -> String {
    format!("  {address:016x} {pc:016x} {asked}\n")
}

/// What is expected of a walk, as lines of text.
pub fn walk_lines(walk: &Walk, walked: &Walked) -> String {
    let (from, process, bytes) = (registers(&walk.registers), process(&walk.process), walk.stack.len());
    let mut text = format!("  from {from} {process} bytes {bytes} limit {} words {}\n", walk.limit, walk.words);
    text += &format!("    {}\n", step(&walked.step));
    text += &format!("    {} kept {}\n", traced(&walked.traced), walked.kept());
    for [cfa, ra, fp] in walked.frames() {
        text += &format!("      {cfa:016x} {ra:016x} {fp:016x}\n");
    }
    text
}

fn registers(registers: &Registers) -> String {
    let Registers { pc, sp, fp, lr, first } = registers;
    format!("{pc:016x} {sp:016x} {fp:016x} {lr:016x} {first:016x}")
}

fn process(process: &Process) -> String {
    let Process { section, stack, mask } = process;
    let places = format!("section {section:016x} stack {stack:016x}");
    match mask {
        0 => places,
        _ => format!("{places} mask {mask:016x}"),
    }
}

fn step(step: &Step) -> String {
    match step {
        Step::Caller(caller) => format!("caller {}", registers(caller)),
        Step::Unsound { old, number, index } => format!("refused {number} at {index} {}", registers(old)),
        Step::Refused { old, number } => format!("refused {number} {}", registers(old)),
    }
}

fn traced(traced: &Traced) -> String {
    let Traced { frames, ending } = traced;
    match ending {
        Ending::Unsound { number, index } => format!("trace {frames} frames ending {number} at {index}"),
        _ => format!("trace {frames} frames ending {}", ending.number()),
    }
}

#[cfg(test)]
mod tests {
    use super::*;
    use crate::reader::{AskedOutcome, Base, Outcome, Place, Row};

    #[test]
    fn a_case_is_its_head_its_bytes_and_its_questions() {
        let mut pack = Vec::new();
        put_case(&mut pack, "ok_two-bytes", &[0xde, 0xe2], &[(0x40_0000, u64::MAX), (1, 0x0102_0304_0506_0708)], &[]);
        put_case(&mut pack, "1_none", &[], &[], &[]);
        let expected = [
            &b"ok_two-bytes                           00000002 00000002 00000000\n\xde\xe2"[..],
            &b"\x00\x00\x40\x00\x00\x00\x00\x00\xff\xff\xff\xff\xff\xff\xff\xff"[..],
            &b"\x01\x00\x00\x00\x00\x00\x00\x00\x08\x07\x06\x05\x04\x03\x02\x01"[..],
            &b"1_none                                 00000000 00000000 00000000\n"[..],
        ];
        assert_eq!(pack, expected.concat());
    }

    fn a_walk(stack: &[u8]) -> Walk {
        let registers = Registers { pc: 0x40_1044, sp: 0x7000, fp: u64::MAX, lr: 4, first: 0x100 };
        let process = Process { section: 0x40_0000, stack: 0x6ff8, mask: 0 };
        Walk { process, registers, stack: stack.to_vec(), limit: 2, words: 7 }
    }

    fn with_mask(walk: Walk, mask: u64) -> Walk {
        Walk { process: Process { mask, ..walk.process }, ..walk }
    }

    #[test]
    fn a_walk_is_eleven_words_and_its_stack() {
        let mut pack = Vec::new();
        let masked = with_mask(a_walk(&[]), 0xff7f_0000_0000_0000);
        put_case(&mut pack, "walked", &[9], &[], &[&a_walk(&[1, 2, 3]), &masked]);
        let head = &b"walked                                 00000001 00000000 00000179\n\x09"[..];
        assert_eq!(&pack[..head.len()], head);
        let words = |mask, bytes| [0x40_0000, 0x6ff8, mask, 0x40_1044, 0x7000, u64::MAX, 4, 0x100, 2, 7, bytes];
        let packed = |words: [u64; 11]| words.map(u64::to_le_bytes).concat();
        let walks = [&packed(words(0, 3))[..], &[1, 2, 3], &packed(words(0xff7f_0000_0000_0000, 0))].concat();
        assert_eq!(&pack[head.len()..], walks);
    }

    // Every stored walk from before there were masks keeps its line.
    #[test]
    fn a_mask_is_told_where_it_is_not_0() {
        let walk = a_walk(&[]);
        let walked = walk.stated(Step::Refused { old: walk.registers, number: 41 }, &[], Ending::Refused(41));
        let lines = |mask| walk_lines(&with_mask(walk.clone(), mask), &walked);
        let told = |mask: &str| lines(0).replace("6ff8 bytes", &format!("6ff8 {mask} bytes"));
        assert!(lines(0).contains(" stack 0000000000006ff8 bytes 0 ") && !lines(0).contains("mask"), "{}", lines(0));
        assert_eq!(lines(1), told("mask 0000000000000001"));
        assert_eq!(lines(u64::MAX - 15), told("mask fffffffffffffff0"));
    }

    #[test]
    fn the_lines_of_a_walk_are_what_is_lent_a_step_a_trace_and_its_frames() {
        let walk = a_walk(&[1, 2, 3]);
        let caller = Step::Caller(Registers { first: 0, ..walk.registers });
        let mut walked = walk.stated(caller, &[[0x10, 0xabc, u64::MAX]], Ending::Refused(28));
        // A word behind the frame that is not as it was does not count as kept.
        walked.words[6] = 0;
        let from = "0000000000401044 0000000000007000 ffffffffffffffff 0000000000000004";
        let lent = format!(
            "  from {from} 0000000000000100 section 0000000000400000 stack 0000000000006ff8 bytes 3 limit 2 words 7\n"
        );
        let answers = format!(
            "    caller {from} 0000000000000000\n    trace 1 frames ending 28 kept 3\n      {} {} {}\n",
            "0000000000000010", "0000000000000abc", "ffffffffffffffff"
        );
        assert_eq!(walk_lines(&walk, &walked), lent.clone() + &answers);

        let old = walk.registers;
        let unsound =
            walk.stated(Step::Unsound { old, number: 14, index: 3 }, &[], Ending::Unsound { number: 14, index: 3 });
        let answers =
            format!("    refused 14 at 3 {from} 0000000000000100\n    trace 0 frames ending 14 at 3 kept 7\n");
        assert_eq!(walk_lines(&walk, &unsound), lent.clone() + &answers);

        let refused = walk.stated(Step::Refused { old, number: 41 }, &[], Ending::Refused(41));
        let answers = format!("    refused 41 {from} 0000000000000100\n    trace 0 frames ending 41 kept 7\n");
        assert_eq!(walk_lines(&walk, &refused), lent + &answers);
    }

    #[test]
    fn a_line_is_a_name_and_a_verdict() {
        let refused = Verdict::Refused { number: 14, index: 1200 };
        assert_eq!(line("K8", refused), "K8                                     refused 14 at 1200\n");
        assert_eq!(line("K1", Verdict::Accepted), "K1                                     accepted\n");
    }

    #[test]
    fn a_line_of_a_question_is_an_address_a_pc_and_an_answer() {
        let row = Row {
            start: 4,
            base: Base::Fp,
            cfa_offset: 0,
            ra: Place::AtOffset(24),
            fp: Place::AtOffset(-16),
            signed: true,
        };
        let in_registers = Row { base: Base::Sp, cfa_offset: -8, ra: Place::Register, fp: Place::Register, ..row };
        let expected = [
            (
                Outcome::Found { function: 7, number: 1, row },
                "found function 7 row 1 start 4 cfa fp+0 ra cfa+24 fp cfa-16 signed 1 compared 3",
            ),
            (
                Outcome::Found { function: 0, number: 2, row: in_registers },
                "found function 0 row 2 start 4 cfa sp-8 ra register fp register signed 1 compared 3",
            ),
            (Outcome::SectionRefused { number: 14, index: 2 }, "refused 14 at 2 compared 3"),
            (Outcome::NoFunction, "refused 21 compared 3"),
            (Outcome::Disputed { first: 0, second: 9 }, "refused 22 at 0 and 9 compared 3"),
            (Outcome::NoRow { function: 5 }, "refused 23 at 5 compared 3"),
        ];
        for (outcome, text) in expected {
            let line = answer_line(0x40_0000, 0xffff_ffff_ffff_fff0, &Answer { outcome, compared: 3 });
            assert_eq!(line, format!("  0000000000400000 fffffffffffffff0 {text}\n"));
        }
    }

    #[test]
    fn a_line_of_what_is_asked_has_a_lookups_form() {
        assert_eq!(asked_head("K8"), "K8                                     asked\n");
        let (base, ra) = (Base::Sp, Place::AtOffset(-8));
        let row = Row { start: 0, base, cfa_offset: 8, ra, fp: Place::Register, signed: false };
        let expected = [
            (
                AskedOutcome::Found { function: 7, number: 1, row },
                "found function 7 row 1 start 0 cfa sp+8 ra cfa-8 fp register signed 0 compared 3",
            ),
            (AskedOutcome::Unsound(8), "refused 8 compared 3"),
            (AskedOutcome::NoFunction, "refused 21 compared 3"),
            (AskedOutcome::NoRow { function: 5 }, "refused 23 at 5 compared 3"),
            (AskedOutcome::Damaged { function: 6 }, "refused 44 at 6 compared 3"),
            (AskedOutcome::Unsorted, "refused 45 compared 3"),
        ];
        for (outcome, text) in expected {
            let line = asked_line(0x40_0000, 0xffff_ffff_ffff_fff0, &Asked { outcome, compared: 3 });
            assert_eq!(line, format!("  0000000000400000 fffffffffffffff0 {text}\n"));
        }
    }

    #[test]
    fn a_name_is_short_and_plain() {
        assert!(is_name(&"n".repeat(38)) && is_name("A-z_09"));
        assert!(!is_name(&"n".repeat(39)) && !is_name("") && !is_name("a b") && !is_name("ä"));
    }
}
