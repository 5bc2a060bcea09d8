//! What `why` prints: an answer, and below it in sentences the numbers from which it follows, with the rules by which
//! it does.
#![forbid(unsafe_code)]

use super::{cfa_of, counted, fp_of, ra_of, refused, section_refused, signed, step};
use crate::reader::{explain_lookup, explain_step, function_at};
use crate::reader::{
    Base, FoundRow, LookupWhy, Near, Place, Process, Refusal, Registers, Row, SavedWord, Step, StepWhy, Sum, Then,
    Unfound,
};

/// What `why` prints of a lookup.
pub fn why_lookup(section: &[u8], address: u64, pc: u64) -> String {
    let asked = Asked::at(section, "PC", address, pc);
    match explain_lookup(section, address, pc) {
        LookupWhy::Unsound(refusal) => unsound(&refusal),
        LookupWhy::Unfound(why) => text(&unfound_answer(&why), &asked.unfound(&why)),
        LookupWhy::Found(found) => {
            let FoundRow { function, number, row, .. } = found;
            let answer = format!("found: function {function}, row {number}, which starts at {}\n", row.start);
            text(&answer, &asked.found(&found))
        }
    }
}

/// What `why` prints of a caller.
pub fn why_step(section: &[u8], stack: &[u8], process: Process, registers: Registers) -> String {
    let asked = |pc| Asked::at(section, "the PC looked up", process.section, pc);
    let looked_up = |pc| [looked_up(pc, registers.first != 0)];
    match explain_step(section, stack, process, registers) {
        StepWhy::PastTheEnd { stack, length } => text(&format!("{}\n", refused(41)), &[past_the_end(stack, length)]),
        StepWhy::Unsound(refusal) => unsound(&refusal),
        StepWhy::NothingAsked => {
            let nothing = "nothing is looked up, since PC is 0 and there is no first-frame mark (SPECIFICATION 5.13)";
            text(&format!("{}\n", refused(21)), &[nothing.to_string()])
        }
        StepWhy::Unfound { pc, why } => {
            text(&unfound_answer(&why), &[&looked_up(pc)[..], &asked(pc).unfound(&why)].concat())
        }
        StepWhy::Found { pc, found, then } => {
            let behind = behind(&found.row, &then, process.mask);
            text(&answer_behind(&then), &[&looked_up(pc)[..], &asked(pc).found(&found), &behind].concat())
        }
    }
}

// An answer, and a line for each sentence.
fn text(answer: &str, sentences: &[String]) -> String {
    let lines: String = sentences.iter().map(|sentence| format!("  {sentence}\n")).collect();
    format!("{answer}{lines}")
}

// The rule of check N is 3.N.
fn unsound(&Refusal { number, index }: &Refusal) -> String {
    let first = format!("no rule that is tried before this one is broken (SPECIFICATION 3.{number}, 3.16)");
    text(&section_refused(number, index), &[first])
}

fn unfound_answer(why: &Unfound) -> String {
    match why {
        Unfound::NoRow { function, .. } => format!("{}, in function {function}\n", refused(23)),
        _ => format!("{}\n", refused(why.number())),
    }
}

fn answer_behind(then: &Then) -> String {
    match *then {
        Then::Caller { caller, .. } => step(&Step::Caller(caller)),
        _ => format!("{}\n", refused(then.number())),
    }
}

fn past_the_end(stack: u64, length: u64) -> String {
    let above = i128::from(stack) + i128::from(length) - (1 << 64);
    let numbers = format!("the window's address is {stack:016x} and its length {length}");
    format!("{numbers}: their sum is {above} above 2^64 (SPECIFICATION 5.3)")
}

fn looked_up(pc: u64, marked: bool) -> String {
    let which =
        if marked { "PC itself, by the first-frame mark" } else { "PC - 1, since there is no first-frame mark" };
    format!("PC looked up: {pc:016x}, which is {which} (SPECIFICATION 5.13)")
}

// A place from the section's first byte.
fn hexadecimal(place: i128) -> String {
    let sign = if place < 0 { '-' } else { '+' };
    format!("{sign}{:#x}", place.unsigned_abs())
}

/// A PC in a section, from its first byte, and what it is called.
struct Asked<'a> {
    section: &'a [u8],
    called: &'static str,
    d: i128,
}

impl Asked<'_> {
    fn at<'a>(section: &'a [u8], called: &'static str, address: u64, pc: u64) -> Asked<'a> {
        Asked { section, called, d: i128::from(pc) - i128::from(address) }
    }

    fn place(&self) -> String {
        format!("{} is {} from the section's first byte", self.called, hexadecimal(self.d))
    }

    // That one function covers the place, and the offset used in it.
    fn in_function(&self, function: u64, offset: u32) -> [String; 2] {
        let told = function_at(self.section, function);
        let place = format!("it starts at {} and has {}", hexadecimal(told.start.into()), counted(told.size, "byte"));
        let from = match told.repeated {
            true => format!("the start of its block of {}", counted(told.repeat, "byte")),
            false => "the function's start".to_string(),
        };
        [
            format!("function {function} covers that, and no other does: {place} (SPECIFICATION 4.1)"),
            format!("the offset used is {offset}, from {from} (SPECIFICATION 4.5)"),
        ]
    }

    fn found(&self, found: &FoundRow) -> Vec<String> {
        let FoundRow { function, offset, number, row, next } = found;
        let next = match next {
            Some(next) => format!("the next row starts at {next}, above it"),
            None => "there is no next row".to_string(),
        };
        let starts = format!("row {number} starts at {}, not above the offset used", row.start);
        let last = format!("{starts}, and {next} (SPECIFICATION 4.7)");
        [&[self.place()][..], &self.in_function(*function, *offset), &[last, by_that_row(row)]].concat()
    }

    fn unfound(&self, why: &Unfound) -> Vec<String> {
        let said = match why {
            Unfound::NoFunction { below, above } => nearest(below, above),
            Unfound::Disputed { count, first } => vec![covering(*count, first)],
            Unfound::NoRow { function, offset, first } => {
                let first = match first {
                    Some(first) => format!("its first row starts at {first}, above the offset used"),
                    None => "it has no rows".to_string(),
                };
                [&self.in_function(*function, *offset)[..], &[format!("{first} (SPECIFICATION 4.6)")]].concat()
            }
        };
        [self.place()].into_iter().chain(said).collect()
    }
}

fn by_that_row(row: &Row) -> String {
    let signed = if row.signed { " and signed" } else { "" };
    format!("by that row, {}, {}{signed}, {} (SPECIFICATION 2.9)", cfa_of(row), ra_of(row), fp_of(row))
}

fn nearest(below: &Option<Near>, above: &Option<Near>) -> Vec<String> {
    let side = |near: &Option<Near>, side| match near {
        Some(Near { at, function }) => {
            let at = hexadecimal((*at).into());
            format!("the nearest address {side} that a function covers is {at}, by function {function}")
        }
        None => format!("no function covers an address {side}"),
    };
    let uncovered = match (below, above) {
        (Some(_), Some(_)) => "nothing between is covered, the PC looked up included",
        (None, None) => "nothing is covered",
        _ => "nothing up to it is covered, the PC looked up included",
    };
    vec![side(below, "below"), side(above, "above"), format!("{uncovered} (SPECIFICATION 4.1, 4.3)")]
}

fn covering(count: u64, first: &[u64]) -> String {
    let told: Vec<String> = first.iter().map(u64::to_string).collect();
    let cut = if (told.len() as u64) < count { format!(", the first {} are", told.len()) } else { String::new() };
    format!("{count} functions cover that{cut}: {} (SPECIFICATION 4.1, 4.4)", told.join(", "))
}

// What comes of a row, in the numbers that its rule compares.
fn behind(row: &Row, then: &Then, mask: u64) -> Vec<String> {
    match *then {
        Then::NoMask { .. } => vec!["the row is signed and the mask is 0 (SPECIFICATION 5.5)".to_string()],
        Then::Outside { base, offset, sum } => {
            let register = if row.base == Base::Sp { "SP" } else { "FP" };
            let numbers = format!("{register} is {base:016x} and the offset is {}", signed(offset));
            vec![format!("{numbers}: their sum is {} (SPECIFICATION 5.6)", summed(sum))]
        }
        Then::TooLow { caller_sp, sp, first } => {
            let compared = if caller_sp < sp {
                format!("below SP, which is {sp:016x}; the first-frame mark is {first:016x}")
            } else {
                "which SP is, and there is no first-frame mark".to_string()
            };
            vec![format!("the caller's SP would be {caller_sp:016x}, {compared} (SPECIFICATION 5.7)")]
        }
        Then::NoPlace { .. } => {
            vec!["the row leaves RA in LR, and there is no first-frame mark (SPECIFICATION 5.8)".to_string()]
        }
        Then::NotInside { word, cfa, offset, sum, stack, length } => {
            let word = match word {
                SavedWord::Ra => "RA",
                SavedWord::Fp => "FP",
            };
            let place = format!("the word of {word} is at CFA {}", signed(offset));
            let place = format!("{place}: CFA is {cfa:016x}, and the sum {} (SPECIFICATION 5.10)", summed(sum));
            vec![place, window(stack, length)]
        }
        Then::Caller { caller, cfa, ra } => came_from(row, &caller, cfa, ra, mask),
    }
}

fn summed(sum: Sum) -> String {
    match sum {
        Sum::At(sum) => format!("{sum:016x}"),
        Sum::Below(by) => format!("{by} below 0"),
        Sum::Above(by) => format!("{by} above 2^64 - 1"),
    }
}

fn window(stack: u64, length: u64) -> String {
    let end = stack.checked_add(length).map_or("2^64".to_string(), |end| format!("{end:016x}"));
    let bytes = counted(length, "byte");
    format!("the stack window begins at {stack:016x} and has {bytes}, so that it ends at {end} (SPECIFICATION 5.10)")
}

fn came_from(row: &Row, caller: &Registers, cfa: u64, ra: u64, mask: u64) -> Vec<String> {
    let from = |place, register: &str| match place {
        Place::Register => register.to_string(),
        Place::AtOffset(offset) => format!("the word at {:016x}", cfa.wrapping_add_signed(offset)),
    };
    let mut sentences = vec![
        format!("CFA is {cfa:016x} (SPECIFICATION 5.6)"),
        format!("RA is {}: {ra:016x} (SPECIFICATION 5.8)", from(row.ra, "LR")),
    ];
    if row.signed {
        let cleared = caller.pc;
        sentences
            .push(format!("the bits of the mask {mask:016x} are cleared from it: {cleared:016x} (SPECIFICATION 5.14)"));
    }
    sentences.push(format!("FP is {}: {:016x} (SPECIFICATION 5.9)", from(row.fp, "unchanged"), caller.fp));
    sentences
}

#[cfg(test)]
mod tests {
    use super::*;
    use crate::cases::S;
    use crate::maker::{self, Function, Machine, Section};

    const FOUND: &str = "\
found: function 0, row 1, which starts at 4
  PC is +0x101f from the section's first byte
  function 0 covers that, and no other does: it starts at +0x1000 and has 32 bytes (SPECIFICATION 4.1)
  the offset used is 31, from the function's start (SPECIFICATION 4.5)
  row 1 starts at 4, not above the offset used, and there is no next row (SPECIFICATION 4.7)
  by that row, CFA is FP + 16, RA is at CFA - 8, FP is at CFA - 16 (SPECIFICATION 2.9)
";
    const NOT_COVERED: &str = "\
refused: 21, no function covers the PC
  PC is +0x1020 from the section's first byte
  the nearest address below that a function covers is +0x101f, by function 0
  the nearest address above that a function covers is +0x1040, by function 1
  nothing between is covered, the PC looked up included (SPECIFICATION 4.1, 4.3)
";
    const NOT_INSIDE: &str = "\
refused: 28, a needed word is not wholly inside the stack window
  PC looked up: 0000000000401040, which is PC - 1, since there is no first-frame mark (SPECIFICATION 5.13)
  the PC looked up is +0x1040 from the section's first byte
  function 1 covers that, and no other does: it starts at +0x1040 and has 16 bytes (SPECIFICATION 4.1)
  the offset used is 0, from the function's start (SPECIFICATION 4.5)
  row 0 starts at 0, not above the offset used, and there is no next row (SPECIFICATION 4.7)
  by that row, CFA is SP + 8, RA is at CFA - 8, FP is unchanged (SPECIFICATION 2.9)
  the word of RA is at CFA - 8: CFA is 0000000000007008, and the sum 0000000000007000 (SPECIFICATION 5.10)
  the stack window begins at 0000000000007000 and has 1 byte, so that it ends at 0000000000007001 (SPECIFICATION 5.10)
";

    // The texts by hand; the stored pages have one for every kind.
    #[test]
    fn answers_in_s_are_explained() {
        assert_eq!(why_lookup(&S, 0x40_0000, 0x40_101f), FOUND);
        assert_eq!(why_lookup(&S, 0x40_0000, 0x40_1020), NOT_COVERED);
        let registers = Registers { pc: 0x40_1041, sp: 0x7000, fp: 0, lr: 0, first: 0 };
        let process = Process { section: 0x40_0000, stack: 0x7000, mask: 0 };
        assert_eq!(why_step(&S, &[0], process, registers), NOT_INSIDE);
    }

    fn last_of(text: &str) -> &str {
        text.trim_end().lines().last().expect("a line").trim_start()
    }

    // Bytes are counted in the singular too, and a place of 0 has a sign.
    #[test]
    fn one_byte_is_one() {
        let mut section = Section::new(Machine::Aarch64);
        section.functions = vec![Function::new(0, 1, 0, vec![maker::Row::new(0, 0, &[16, -8])])];
        (section.functions[0].repeated, section.functions[0].repeat) = (true, 1);
        let text = why_lookup(&section.bytes(), 0x1000, 0x1000);
        for said in ["PC is +0x0 from", "it starts at +0x0 and has 1 byte (", "from the start of its block of 1 byte ("]
        {
            assert!(text.contains(said), "{said}: {text}");
        }
        let none = "the stack window begins at 0000000000007000 and has 0 bytes, so that it ends at 0000000000007000";
        assert_eq!(window(0x7000, 0), format!("{none} (SPECIFICATION 5.10)"));
    }

    #[test]
    fn all_that_cover_are_told_up_to_16() {
        let told = |count: u64| covering(count, &Vec::from_iter(0..count.min(16)));
        assert_eq!(told(2), "2 functions cover that: 0, 1 (SPECIFICATION 4.1, 4.4)");
        let sixteen = "0, 1, 2, 3, 4, 5, 6, 7, 8, 9, 10, 11, 12, 13, 14, 15";
        assert_eq!(told(16), format!("16 functions cover that: {sixteen} (SPECIFICATION 4.1, 4.4)"));
        let of_17 = "17 functions cover that, the first 16 are";
        assert_eq!(told(17), format!("{of_17}: {sixteen} (SPECIFICATION 4.1, 4.4)"));
    }

    #[test]
    fn a_window_past_the_end_is_told_by_how_much() {
        let process = Process { section: 0x40_0000, stack: u64::MAX, mask: 0 };
        let text = why_step(&S, &[0; 2], process, Registers::default());
        let sum = "the window's address is ffffffffffffffff and its length 2: their sum is 1 above 2^64";
        assert_eq!(last_of(&text), format!("{sum} (SPECIFICATION 5.3)"));
        assert!(window(u64::MAX - 7, 8).contains("has 8 bytes, so that it ends at 2^64 ("));
    }
}
