//! Crashes of real programs: the section that each was linked with, the registers of the fault, the live stack, and
//! the frames as somebody else knows them. Some were recorded by the program in its own signal handler
//! (vectors/recorder, and vectors/recorder_aarch64), with the frames that it noted on its way down; the others were
//! stopped by a debugger, which told their frames: some whose functions end in calls that never return
//! (vectors/last_calls), and some whose functions sign their return addresses (vectors/signed).

use super::questions::{defined, Question};
use super::walks::Expected;
use super::{Case, ACCEPTED};
use crate::in_repository;
use crate::maker::SORTED;
use crate::reader::{functions, Ending, Process, Registers, Step};
use crate::walk::Walk;
use std::collections::BTreeSet;
use std::fs;

const BY_ITSELF: &str = "vectors/recorder";
const ON_AARCH64: &str = "vectors/recorder_aarch64";
const LAST_CALLS: &str = "vectors/last_calls";
const SIGNED: &str = "vectors/signed";

/// The crashes that the recorder wrote on AArch64: the folder of each, and whether its functions sign.
const AARCH64_RECORDS: [(&str, bool); 2] = [("plain", false), ("signed", true)];

/// The crashes in functions that end in calls: each section, and the folders of its runs.
pub const LAST_CALL_RUNS: [(&str, [&str; 2]); 2] =
    [("amd64", ["amd64_abort", "amd64_halt"]), ("aarch64", ["aarch64_abort", "aarch64_halt"])];

/// The sections of functions that sign their return addresses: by each key, in each byte order.
pub const SIGNED_SECTIONS: [&str; 4] = ["key_a", "key_b", "key_a_big", "key_b_big"];

/// Whose signatures stand on the stacks.
const SIGNERS: [&str; 2] = ["emulator", "made_up"];

/// The crashes of each of their programs, and for each frame whether its row has the signed bit, by the dump.
const SIGNED_CRASHES: [(&str, [bool; 4]); 2] =
    [("leaf", [true, true, false, true]), ("zero", [false, true, false, true])];

pub fn all() -> Vec<Case> {
    let section = file(&format!("{BY_ITSELF}/section.sframe"));
    let run = Run::read(BY_ITSELF);
    let questions = run.questions(&section, &run.pcs());
    vec![Case::new("ok_recorded_crash", section, ACCEPTED).asked(questions).walked(vec![run.walk()])]
}

/// A case for each crash that the recorder wrote on AArch64, walked with its mask and without one: that is refused at
/// the first row where the functions sign, and comes to the same where they do not.
pub fn on_aarch64() -> Vec<Case> {
    let of_record = |(name, signed): (&str, bool)| {
        let section = file(&format!("{ON_AARCH64}/{name}/section.sframe"));
        let run = Run::read(&format!("{ON_AARCH64}/{name}"));
        let pcs: BTreeSet<u64> = run.pcs().into_iter().flat_map(|pc| [pc - 1, pc]).collect();
        let questions = run.questions(&section, &Vec::from_iter(pcs));
        let without_mask = Process { mask: 0, ..run.process };
        let unmasked = if signed { run.walk_unmasked(0) } else { run.stated(without_mask, &run.frames, run.ending) };
        let case_name = if signed { "ok_recorded_aarch64_signed" } else { "ok_recorded_aarch64" };
        Case::new(case_name, section, ACCEPTED).asked(questions).walked(vec![run.walk(), unmasked])
    };
    AARCH64_RECORDS.map(of_record).into()
}

/// A case for each of the two machines, with two crashes; asked at each return address as it stands, too, where a
/// lookup finds the neighbour of the function that called.
pub fn last_calls() -> Vec<Case> {
    let of_machine = |(machine, folders): (&str, [&str; 2])| {
        let section = file(&format!("{LAST_CALLS}/{machine}.sframe"));
        let runs = folders.map(|folder| Run::read(&format!("{LAST_CALLS}/{folder}")));
        let pcs: BTreeSet<u64> = runs.iter().flat_map(Run::pcs).flat_map(|pc| [pc - 1, pc]).collect();
        let questions = runs[0].questions(&section, &Vec::from_iter(pcs));
        Case::new(format!("ok_last_calls_{machine}"), section, ACCEPTED)
            .asked(questions)
            .walked(runs.iter().map(Run::walk).collect())
    };
    LAST_CALL_RUNS.map(of_machine).into()
}

/// A case for each section, with both crashes under both signatures: each is walked with its mask, and without one, by
/// which it is refused at the first signed row.
pub fn signed() -> Vec<Case> {
    let of_section = |name: &str| {
        let section = file(&format!("{SIGNED}/{name}.sframe"));
        let runs = signed_runs(name);
        let pcs = runs.iter().flat_map(|(run, _)| run.pcs()).flat_map(|pc| [pc.saturating_sub(1), pc]);
        let questions = runs[0].0.questions(&section, &Vec::from_iter(BTreeSet::from_iter(pcs)));
        let walks = runs.iter().flat_map(|(run, signed)| {
            let before = signed.iter().take_while(|signed| !**signed).count();
            [run.walk(), run.walk_unmasked(before)]
        });
        Case::new(format!("ok_signed_{name}"), section, ACCEPTED).asked(questions).walked(walks.collect())
    };
    SIGNED_SECTIONS.map(of_section).into()
}

// The crashes of a program, each with what the dump says of its frames.
fn signed_runs(name: &str) -> Vec<(Run, [bool; 4])> {
    let mut runs = Vec::new();
    for signer in SIGNERS {
        for (crash, signed) in SIGNED_CRASHES {
            runs.push((Run::read(&format!("{SIGNED}/{signer}/{name}_{crash}")), signed));
        }
    }
    runs
}

/// What stands beside the section and the stack.
struct Run {
    folder: String,
    process: Process,
    registers: Registers,
    limit: u64,
    ending: u64,
    frames: Vec<[u64; 3]>,
}

impl Run {
    fn read(folder: &str) -> Run {
        let text = text(&format!("{folder}/run.txt"));
        let found = |name: &str| text.lines().find_map(|line| line.strip_prefix(name)?.strip_prefix(' ')).map(number);
        let value = |name: &str| found(name).unwrap_or_else(|| panic!("{folder}/run.txt has no {name}"));
        let frames: Vec<[u64; 3]> = self::text(&format!("{folder}/frames.txt")).lines().map(frame).collect();
        assert_eq!(frames.len() as u64, value("frames"), "the two files speak of as many frames");
        Run {
            folder: folder.to_string(),
            process: Process {
                section: value("section_address"),
                stack: value("stack_address"),
                // Told only where there are signatures.
                mask: found("mask").unwrap_or(0),
            },
            registers: Registers { pc: value("pc"), sp: value("sp"), fp: value("fp"), lr: value("lr"), first: 1 },
            limit: value("limit"),
            ending: value("ending"),
            frames,
        }
    }

    // The PC of the fault and each return address; the last is where the program was called, which no function covers,
    // or 0.
    fn pcs(&self) -> Vec<u64> {
        let returns = self.frames.iter().map(|[_, ra, _]| *ra);
        [self.registers.pc].into_iter().chain(returns).collect()
    }

    fn questions(&self, section: &[u8], pcs: &[u64]) -> Vec<Question> {
        let places = pcs.iter().map(|&pc| i128::from(pc) - i128::from(self.process.section)).collect();
        defined(section[3] & SORTED != 0, &functions(section), self.process.section, &places)
    }

    fn stack(&self) -> Vec<u8> {
        file(&format!("{}/stack.bin", self.folder))
    }

    fn walk(&self) -> Expected {
        self.stated(self.process, &self.frames, self.ending)
    }

    // Without a mask, with so many frames before the first signed row.
    fn walk_unmasked(&self, frames: usize) -> Expected {
        self.stated(Process { mask: 0, ..self.process }, &self.frames[..frames], 24)
    }

    // The first frame is the step's caller too; where there is none, the step is refused as the trace is.
    fn stated(&self, process: Process, frames: &[[u64; 3]], number: u64) -> Expected {
        let registers = self.registers;
        let step = match *frames {
            [[sp, pc, fp], ..] => Step::Caller(Registers { pc, sp, fp, lr: registers.lr, first: 0 }),
            [] => Step::Refused { old: registers, number },
        };
        let ending = if number == 30 { Ending::Outermost } else { Ending::Refused(number) };
        let words = 3 * self.limit as usize;
        let walk = Walk { process, registers, stack: self.stack(), limit: self.limit, words };
        let walked = walk.stated(step, frames, ending);
        (walk, walked)
    }
}

// CFA, RA and FP, each hexadecimal.
fn frame(line: &str) -> [u64; 3] {
    let words: Vec<u64> = line.split(' ').map(number).collect();
    words.try_into().unwrap_or_else(|_| panic!("{line:?} is not three numbers"))
}

fn number(shown: &str) -> u64 {
    u64::from_str_radix(shown, 16).unwrap_or_else(|error| panic!("{shown:?}: {error}"))
}

fn file(name: &str) -> Vec<u8> {
    let path = in_repository(name);
    fs::read(&path).unwrap_or_else(|error| panic!("{}: {error}", path.display()))
}

fn text(name: &str) -> String {
    String::from_utf8(file(name)).unwrap_or_else(|error| panic!("{name}: {error}"))
}

#[cfg(test)]
mod tests {
    use super::*;
    use crate::reader::{lookup, Outcome, Place};

    impl Run {
        // The eight bytes there, of a stack in little endian.
        fn word_at(&self, address: u64) -> u64 {
            let at = (address - self.process.stack) as usize;
            u64::from_le_bytes(self.stack()[at..at + 8].try_into().expect("eight bytes"))
        }
    }

    // The walk is one through three functions of different frames into main, and out of the section.
    #[test]
    fn the_crash_lies_in_four_functions_and_leaves_the_section() {
        let run = Run::read(BY_ITSELF);
        let [case] = &all()[..] else { panic!("one case") };
        let mut covering: Vec<u64> = Vec::new();
        for question in &case.questions {
            if let Outcome::Found { function, .. } = question.expected.outcome {
                covering.push(function);
            }
        }
        covering.dedup();
        assert_eq!((covering.len(), case.questions.len()), (4, 5));
        assert_eq!((run.frames.len(), run.ending), (4, 21));
    }

    // The same walk on AArch64. What is in LR is the return address of the function that faulted, which calls nothing;
    // the others saved theirs. Where the functions sign, every one of these words has a signature in the mask.
    #[test]
    fn the_first_row_on_aarch64_has_ra_in_lr() {
        for (case, (name, signed)) in on_aarch64().iter().zip(AARCH64_RECORDS) {
            let run = Run::read(&format!("{ON_AARCH64}/{name}"));
            assert_eq!((run.frames.len(), run.ending), (5, 21), "{name}");
            let asked = run.pcs().into_iter().zip([0, 1, 1, 1, 1]).map(|(pc, before)| pc - before);
            let mut functions = Vec::new();
            for (number, (pc, [cfa, ra, _])) in asked.zip(&run.frames).enumerate() {
                let Outcome::Found { function, row, .. } = lookup(&case.section, run.process.section, pc).outcome
                else {
                    panic!("{name}: no row at {pc:x}")
                };
                functions.push(function);
                let word = match row.ra {
                    Place::Register => run.registers.lr,
                    Place::AtOffset(offset) => run.word_at(cfa.wrapping_add_signed(offset)),
                };
                assert_eq!((row.ra == Place::Register, row.signed), (number == 0, signed), "{name}, frame {number}");
                assert_eq!(word & !run.process.mask, *ra, "{name}, frame {number}");
                assert_eq!(word & run.process.mask != 0, signed, "{name}, frame {number}");
            }
            assert_eq!(functions, [27, 25, 23, 30, 0], "third, last, second, first and main of {name}");
        }
    }

    // The stack window is what the registers say: from SP to the last frame's CFA.
    #[test]
    fn the_stack_reaches_from_sp_to_the_last_cfa() {
        let last_calls = LAST_CALL_RUNS.iter().flat_map(|(_, folders)| folders);
        let by_itself = AARCH64_RECORDS.map(|(name, _)| format!("{ON_AARCH64}/{name}"));
        let folders = last_calls.map(|folder| format!("{LAST_CALLS}/{folder}"));
        let folders = folders.chain([BY_ITSELF.to_string()]).chain(by_itself);
        let signed = SIGNED_SECTIONS.into_iter().flat_map(signed_runs).map(|(run, _)| run);
        for run in folders.map(|folder| Run::read(&folder)).chain(signed) {
            assert_eq!(run.process.stack, run.registers.sp, "{}", run.folder);
            let last = run.frames[run.frames.len() - 1];
            assert_eq!(run.process.stack + run.stack().len() as u64, last[0], "{}", run.folder);
        }
    }

    // What was at fault: every return address but that of `begin` in the crash by abort stands at the first byte of a
    // neighbour, so that PC itself, looked up, is in another function than PC - 1.
    #[test]
    fn the_neighbour_of_a_last_call_is_another_function() {
        for (case, (machine, folders)) in last_calls().iter().zip(LAST_CALL_RUNS) {
            for folder in folders {
                let run = Run::read(&format!("{LAST_CALLS}/{folder}"));
                let function = |pc: u64| match lookup(&case.section, run.process.section, pc).outcome {
                    Outcome::Found { function, .. } => Some(function),
                    _ => None,
                };
                let blamed = run.frames.iter().filter(|[_, ra, _]| function(*ra) != function(ra - 1)).count();
                let in_begin = usize::from(folder.ends_with("abort"));
                assert_eq!((blamed, run.frames.len(), run.ending), (3 - in_begin, 3, 21), "{machine}, {folder}");
            }
        }
    }

    // In the crash of the leaf a signed return address is in LR, and the walk leaves the section; in the other the last
    // is nothing but its signature. Both pass a function that does not sign.
    #[test]
    fn the_signed_frames_are_those_of_the_table() {
        for (case, name) in signed().iter().zip(SIGNED_SECTIONS) {
            for (run, signed) in signed_runs(name) {
                let asked = run.pcs().into_iter().zip([0, 1, 1, 1]).map(|(pc, before)| pc - before);
                let row = |pc| match lookup(&case.section, run.process.section, pc).outcome {
                    Outcome::Found { row, .. } => row,
                    outcome => panic!("{}: {outcome:?} at {pc:x}", run.folder),
                };
                let rows = Vec::from_iter(asked.map(row));
                assert_eq!(rows.iter().map(|row| row.signed).collect::<Vec<_>>(), signed, "{}", run.folder);
                assert_eq!(rows[0].ra, Place::Register, "{}", run.folder);
                let last = if signed[0] { (0x40_00fc, 21) } else { (0, 30) };
                assert_eq!((run.frames[3][1], run.ending), last, "{}", run.folder);
            }
        }
    }

    // By a mask with bits of an address some crashes tell that the row of that frame is not signed.
    #[test]
    fn an_unsigned_address_keeps_bits_of_some_masks() {
        let kept = |(run, signed): &(Run, [bool; 4])| {
            let addresses = run.frames.iter().zip(signed);
            let masked = addresses.filter(|([_, ra, _], _)| ra & run.process.mask != 0).map(|(_, signed)| *signed);
            masked.collect::<Vec<_>>()
        };
        let crashes = SIGNED_SECTIONS.map(|name| signed_runs(name).iter().map(kept).collect::<Vec<_>>().concat());
        assert_eq!(crashes, [vec![false], vec![], vec![false], vec![]]);
    }

    // The words that differ, LR among them, are the return addresses of the signed frames; either has a signature in its
    // own mask, and the rest is the same.
    #[test]
    fn two_signatures_are_all_that_differs_in_a_crash() {
        for name in SIGNED_SECTIONS {
            let read = if name.ends_with("big") { u64::from_be_bytes } else { u64::from_le_bytes };
            let words = |run: &Run| -> Vec<u64> {
                let on_stack = run.stack();
                on_stack.as_chunks().0.iter().map(|bytes| read(*bytes)).chain([run.registers.lr]).collect()
            };
            let runs = signed_runs(name);
            let (by_emulator, made_up) = runs.split_at(SIGNED_CRASHES.len());
            for ((one, signed), (other, _)) in by_emulator.iter().zip(made_up) {
                assert_eq!((&one.frames, one.ending), (&other.frames, other.ending), "{}", one.folder);
                let mut addresses = BTreeSet::new();
                for (word, otherwise) in words(one).into_iter().zip(words(other)) {
                    if word != otherwise {
                        let address = word & !one.process.mask;
                        assert_eq!(address, otherwise & !other.process.mask, "{}", one.folder);
                        assert!(word != address && otherwise != address, "{}", one.folder);
                        addresses.insert(address);
                    }
                }
                let returns = one.frames.iter().zip(signed).filter(|(_, signed)| **signed).map(|([_, ra, _], _)| *ra);
                assert_eq!(addresses, returns.collect(), "{}", one.folder);
            }
        }
    }
}
