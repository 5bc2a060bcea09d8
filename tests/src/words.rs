//! What the program `sframe` prints: the words of each number and the lines of each answer, by what the reader says.
#![forbid(unsafe_code)]

pub mod hints;
mod listing;
mod why;

pub use listing::{listing, listing_of};
pub use why::{why_lookup, why_step};

use crate::reader::{function_at, USUAL_FRAMES};
use crate::reader::{Answer, Asked, AskedOutcome, Base, Ending, Header, Outcome, Place, Registers, Row, Step, Verdict};
use crate::walk::Walked;

/// The most bytes of a file that the program reads, where its stack has room for them. A longer section it refuses with 2.
pub const MOST_BYTES: usize = 16_777_216;

/// The most bytes of a section and of a stack window that it reads on the usual stack of 8 MiB.
pub const USUAL_SECTION_BYTES: usize = 6_291_456;
pub const USUAL_STACK_BYTES: usize = 1_048_576;

/// Each command, and what it takes, in one form or another; what stands in brackets may be left out, and what has dots
/// behind it may be repeated.
pub const COMMANDS: [(&str, &str); 9] = [
    ("check", "FILE"),
    ("list", "FILE [INDEX]"),
    ("lookup", "FILE ADDRESS PC..."),
    ("ask", "FILE ADDRESS PC..."),
    ("why", "FILE ADDRESS PC, or FILE ADDRESS STACK STACK_ADDRESS PC SP FP LR FIRST MASK"),
    ("caller", "FILE ADDRESS STACK STACK_ADDRESS PC SP FP LR FIRST [MASK]"),
    ("trace", "FILE ADDRESS STACK STACK_ADDRESS PC SP FP LR LIMIT [MASK]"),
    ("help", "[COMMAND]"),
    ("version", ""),
];

/// The forms of what a command takes.
pub fn forms(takes: &str) -> impl Iterator<Item = &str> {
    takes.split(", or ")
}

/// The arguments that are counts: they are decimal, and all other numbers hexadecimal.
pub const DECIMAL: [&str; 2] = ["INDEX", "LIMIT"];

const WORDS: [(u64, &str); 30] = [
    (1, "fewer than 28 bytes"),
    (2, "more than 16,777,216 bytes"),
    (3, "the magic is neither byte order's"),
    (4, "the version is not 2"),
    (5, "a flag outside 0x07 is set"),
    (6, "the ABI is not 1, 2 or 3, or disagrees with the byte order"),
    (7, "the fixed FP and RA offsets are not those of the ABI"),
    (8, "the function table, the row area and the length do not fit together"),
    (9, "an entry's info has bit 6 or 7 set, or a row type above 2"),
    (10, "an entry has repeated blocks of size 0"),
    (11, "the rows of an entry lie outside the row bytes"),
    (12, "a row's info has offset size 3, or a count that is not allowed"),
    (13, "a row start is not above the one before it"),
    (14, "the sorted flag is set, and a start is below the end of the entry before it"),
    (15, "the row counts of all entries do not add up to the header's"),
    (21, "no function covers the PC"),
    (22, "two or more functions cover the PC"),
    (23, "no row of the function starts at or below the PC"),
    (24, "the return address is signed, and no mask says by which bits"),
    (25, "CFA is outside 0 to 2^64 - 1"),
    (26, "CFA is below SP, or equal to it without the first-frame mark"),
    (27, "RA has no place: only the first frame has it in LR"),
    (28, "a needed word is not wholly inside the stack window"),
    (30, "RA is 0: the outermost frame"),
    (31, "the limit is full"),
    (41, "the stack window ends above 2^64"),
    (42, "the limit is above 256"),
    (43, "the buffer has fewer than 3 words for each frame of the limit"),
    (44, "the function landed on covers the PC and breaks one of the rules 9 to 13"),
    (45, "the sorted flag is not set, and only a sorted section can be asked"),
];

/// The words of a number.
///
/// # Panics
/// Where there is no such number.
pub fn words(number: u64) -> &'static str {
    let found = WORDS.iter().find(|(known, _)| *known == number);
    found.unwrap_or_else(|| panic!("{number} is no number of a refusal or an ending")).1
}

fn refused(number: u64) -> String {
    format!("refused: {number}, {}", words(number))
}

// 9 to 14 are broken by an entry, and name it.
fn section_refused(number: u64, index: u64) -> String {
    match number {
        9..=14 => format!("{}, in function {index}\n", refused(number)),
        _ => format!("{}\n", refused(number)),
    }
}

/// What `check` prints of a section with this verdict.
///
/// # Panics
/// Where an accepted section has no header.
pub fn verdict(section: &[u8], verdict: Verdict) -> String {
    match verdict {
        Verdict::Refused { number, index } => section_refused(number, index),
        Verdict::Accepted => {
            let header = Header::read(section).expect("an accepted section has a header");
            let sorted = if header.flags & 1 == 1 { "sorted" } else { "not sorted" };
            let (functions, rows) = (counted(header.functions, "function"), counted(header.rows, "row"));
            format!("accepted: {}, {functions}, {rows}, {sorted}\n", abi(header.abi))
        }
    }
}

fn abi(abi: u8) -> &'static str {
    match abi {
        1 => "AArch64 big-endian",
        2 => "AArch64 little-endian",
        _ => "AMD64",
    }
}

fn counted(count: impl Into<u64>, what: &str) -> String {
    let count = count.into();
    let ending = if count == 1 { "" } else { "s" };
    format!("{count} {what}{ending}")
}

/// What `lookup` prints of a PC in this section.
pub fn answer(section: &[u8], pc: u64, answer: &Answer) -> String {
    let said = match answer.outcome {
        Outcome::Found { function, number, row } => found(section, function, number, &row),
        Outcome::SectionRefused { number, index } => section_refused(number, index),
        Outcome::NoFunction => format!("{}\n{}", refused(21), understood(pc)),
        Outcome::Disputed { first, second } => {
            let two = format!("{} and {}", bounded(section, first), bounded(section, second));
            format!("{}, the first two are {two}\n{}", refused(22), understood(pc))
        }
        Outcome::NoRow { function } => refused_at(section, pc, 23, function),
    };
    format!("{said}entries compared: {}\n", answer.compared)
}

/// What `ask` prints of a PC in this section.
pub fn asked(section: &[u8], pc: u64, asked: &Asked) -> String {
    let number = asked.refusal();
    let said = match asked.outcome {
        AskedOutcome::Found { function, number, row } => found(section, function, number, &row),
        AskedOutcome::Unsound(_) | AskedOutcome::Unsorted => format!("{}\n", refused(number)),
        // Other words than a lookup's: other functions may cover the PC.
        AskedOutcome::NoFunction => {
            format!("refused: 21, no function that covers the PC was landed on\n{}", understood(pc))
        }
        AskedOutcome::NoRow { function } | AskedOutcome::Damaged { function } => {
            refused_at(section, pc, number, function)
        }
    };
    format!("{said}entries compared: {}\n", asked.compared)
}

/// What `lookup` or `ask` prints of several PCs, by what it prints of each.
pub fn several(answers: &[(u64, String)]) -> String {
    answers.iter().map(|(pc, answer)| format!("PC {pc:016x}\n{answer}")).collect()
}

// The PC of a refusal, as it was understood.
fn understood(pc: u64) -> String {
    format!("looked up: {pc:016x}\n")
}

fn refused_at(section: &[u8], pc: u64, number: u64, function: u64) -> String {
    format!("{}, in function {}\n{}", refused(number), bounded(section, function), understood(pc))
}

// A function's index with its start, counted from the section's first byte, and its size.
fn bounded(section: &[u8], function: u64) -> String {
    let described = function_at(section, function);
    let sign = if described.start < 0 { '-' } else { '+' };
    format!("{function} (start {sign}0x{:x}, size {})", described.start.unsigned_abs(), described.size)
}

fn found(section: &[u8], function: u64, number: u64, row: &Row) -> String {
    let mark = if row.signed { "RA is signed\n" } else { "" };
    let place = format!("function {}, row {number}, which starts at {}", bounded(section, function), row.start);
    format!("found: {place}\n{}\n{}\n{mark}{}\n", cfa_of(row), ra_of(row), fp_of(row))
}

fn cfa_of(row: &Row) -> String {
    let base = match row.base {
        Base::Fp => "FP",
        Base::Sp => "SP",
    };
    format!("CFA is {base} {}", signed(row.cfa_offset))
}

fn ra_of(row: &Row) -> String {
    match row.ra {
        Place::Register => "RA is in LR".to_string(),
        Place::AtOffset(offset) => format!("RA is at CFA {}", signed(offset)),
    }
}

fn fp_of(row: &Row) -> String {
    match row.fp {
        Place::Register => "FP is unchanged".to_string(),
        Place::AtOffset(offset) => format!("FP is at CFA {}", signed(offset)),
    }
}

fn signed(offset: i64) -> String {
    let sign = if offset < 0 { '-' } else { '+' };
    format!("{sign} {}", offset.unsigned_abs())
}

/// What `caller` prints.
pub fn step(step: &Step) -> String {
    match *step {
        Step::Caller(Registers { pc, sp, fp, lr, .. }) => {
            format!("caller:\nPC  {pc:016x}\nSP  {sp:016x}\nFP  {fp:016x}\nLR  {lr:016x}\n")
        }
        Step::Unsound { number, index, .. } => section_refused(number, index),
        Step::Refused { old, number } => format!("{}\n{}", refused(number), looked_up(number, old.pc, old.first != 0)),
    }
}

// What was looked up stands below 21, 22 and 23: PC itself with the mark, and the PC before it without.
fn looked_up(number: u64, pc: u64, marked: bool) -> String {
    match (number, pc) {
        (21..=23, _) if marked => format!("looked up: {pc:016x}\n"),
        (21, 0) => "looked up: nothing, since PC is 0 without the first-frame mark\n".to_string(),
        (21..=23, _) => format!("looked up: {:016x}\n", pc - 1),
        _ => String::new(),
    }
}

/// What `trace` prints that began at this PC with this limit; the one in force is told where 0 was given for it, and one
/// that is too high as it was understood.
pub fn trace(pc: u64, limit: u64, walked: &Walked) -> String {
    let told = match limit {
        0 => format!("limit in force: {USUAL_FRAMES}\n"),
        257.. => format!("limit given: {limit}\n"),
        _ => String::new(),
    };
    traced(pc, walked) + &told
}

fn traced(pc: u64, walked: &Walked) -> String {
    match walked.traced.ending {
        Ending::Unsound { number, index } => section_refused(number, index),
        Ending::Refused(number @ 41..=43) => format!("{}\n", refused(number)),
        ending => {
            let (frames, number) = (walked.traced.frames, ending.number());
            let ended = format!("{}frames: {frames}\nended: {number}, {}\n", frames_of(pc, walked), words(number));
            let (next, marked) = walked.frames().last().map_or((pc, true), |[_, ra, _]| (*ra, false));
            let met = if number < 30 { format!("at PC: {next:016x}\n") } else { String::new() };
            ended + &met + &looked_up(number, next, marked)
        }
    }
}

// The PC of a frame is the RA of the one before it.
fn frames_of(pc: u64, walked: &Walked) -> String {
    let frames = walked.frames();
    let pcs = [pc].into_iter().chain(frames.iter().map(|[_, ra, _]| *ra));
    let line = |(number, (pc, [cfa, ra, fp])): (usize, (u64, &[u64; 3]))| {
        format!("{number:>5}  {pc:016x}  {cfa:016x}  {ra:016x}  {fp:016x}\n")
    };
    let lines: String = pcs.zip(frames).enumerate().map(line).collect();
    let head = format!("frame  {:<16}  {:<16}  {:<16}  FP\n", "PC", "CFA", "RA");
    if lines.is_empty() {
        return lines;
    }
    head + &lines
}

/// What the program says to standard error, of a wrong command line above all.
pub mod wrong {
    use super::{COMMANDS, DECIMAL, MOST_BYTES};

    pub fn no_command() -> String {
        "sframe: no command; 'sframe help' lists them\n".to_string()
    }

    pub fn unknown(command: &str) -> String {
        format!("sframe: '{}' is no command; 'sframe help' lists them\n", visible(command.as_bytes()))
    }

    /// # Panics
    /// Where there is no such command.
    pub fn count(command: &str) -> String {
        let known = COMMANDS.iter().find(|(name, _)| *name == command);
        let takes = known.map(|(_, takes)| if takes.is_empty() { "no arguments" } else { takes });
        format!("sframe: '{command}' takes {}\n", takes.expect("a command"))
    }

    pub fn number(name: &str, given: &str) -> String {
        let (kind, digits) = if DECIMAL.contains(&name) { ("decimal", 19) } else { ("hexadecimal", 16) };
        let asked = format!("a {kind} number of 1 to {digits} digits, leading zeros aside");
        format!("sframe: {name} is not {asked}: '{}'\n", visible(given.as_bytes()))
    }

    pub fn refused_section() -> String {
        "sframe: the section is refused; 'sframe check' says why\n".to_string()
    }

    /// Of an accepted section with so many functions.
    pub fn no_function(index: u64, functions: u32) -> String {
        format!("sframe: there is no function {index}: the section has {functions}\n")
    }

    pub fn missing(file: &str) -> String {
        format!("sframe: {}: No such file or directory\n", visible(file.as_bytes()))
    }

    pub fn directory(file: &str) -> String {
        format!("sframe: {file}: Is a directory\n")
    }

    /// Of a file that is longer than the program reads, on a stack that has room for so many bytes.
    pub fn too_long(file: &str, most: usize) -> String {
        let why = match most {
            MOST_BYTES => "the most that this program reads",
            _ => "for which the stack limit leaves no room: 'ulimit -s' raises it",
        };
        format!("sframe: {file}: more than {most} bytes, {why}\n")
    }

    /// Of a stack limit of so many bytes.
    pub fn no_room(limit: u64) -> String {
        format!("sframe: the stack limit of {limit} bytes leaves no room to read a file: 'ulimit -s' raises it\n")
    }

    pub fn both_input() -> String {
        "sframe: FILE and STACK cannot both be standard input\n".to_string()
    }

    pub fn unwritten(why: &str) -> String {
        format!("sframe: standard output: {why}\n")
    }

    pub fn closed() -> String {
        "sframe: standard output is closed\n".to_string()
    }

    /// An argument as it is echoed: what is not a printable character of ASCII by its number, and \ twice.
    pub fn visible(given: &[u8]) -> String {
        let byte = |byte: &u8| match byte {
            b'\\' => "\\\\".to_string(),
            b' '..=b'~' => char::from(*byte).to_string(),
            _ => format!("\\x{byte:02x}"),
        };
        given.iter().map(byte).collect()
    }
}

#[cfg(test)]
mod tests {
    use super::*;
    use crate::cases::{all, S};
    use crate::reader;

    #[test]
    fn every_number_has_words_and_no_other() {
        let known: Vec<u64> = WORDS.iter().map(|(number, _)| *number).collect();
        let numbers: Vec<u64> = (1..=15).chain(21..=28).chain([30, 31]).chain(41..=45).collect();
        assert_eq!(known, numbers);
    }

    #[test]
    fn a_section_is_told_by_its_abi_and_its_counts() {
        let told = |section: &[u8]| verdict(section, reader::check(section));
        assert_eq!(told(&S), "accepted: AMD64, 2 functions, 3 rows, sorted\n");
        // The first function of S with its first row alone.
        let mut one = [&S[..48], &S[68..71]].concat();
        (one[3], one[8], one[12], one[16], one[24], one[40]) = (0, 1, 1, 3, 20, 1);
        assert_eq!(told(&one), "accepted: AMD64, 1 function, 1 row, not sorted\n");
        assert_eq!(told(&S[..27]), "refused: 1, fewer than 28 bytes\n");
        let cut = "refused: 8, the function table, the row area and the length do not fit together\n";
        assert_eq!(told(&S[..77]), cut);
        let twice = verdict(&S, Verdict::Refused { number: 13, index: 0 });
        assert_eq!(twice, "refused: 13, a row start is not above the one before it, in function 0\n");
    }

    #[test]
    fn a_row_is_told_by_its_places() {
        let framed = "found: function 0 (start +0x1000, size 32), row 1, which starts at 4\n\
                      CFA is FP + 16\nRA is at CFA - 8\nFP is at CFA - 16\n";
        let told = answer(&S, 0x40_1004, &reader::lookup(&S, 0x40_0000, 0x40_1004));
        assert_eq!(told, format!("{framed}entries compared: 2\n"));
        let row =
            Row { start: 7, base: Base::Sp, cfa_offset: 0, ra: Place::Register, fp: Place::Register, signed: true };
        let outcome = Outcome::Found { function: 1, number: 3, row };
        let in_registers = "found: function 1 (start +0x1040, size 16), row 3, which starts at 7\n\
                            CFA is SP + 0\nRA is in LR\nRA is signed\n";
        let told = answer(&S, 0x40_1047, &Answer { outcome, compared: 9 });
        assert_eq!(told, format!("{in_registers}FP is unchanged\nentries compared: 9\n"));
        assert_eq!(signed(i64::from(i32::MIN)), "- 2147483648");
    }

    #[test]
    fn a_refused_lookup_names_its_functions() {
        let told = |outcome| answer(&S, 0x40_1020, &Answer { outcome, compared: 2 });
        let behind = "looked up: 0000000000401020\nentries compared: 2\n";
        assert_eq!(told(Outcome::NoFunction), format!("refused: 21, no function covers the PC\n{behind}"));
        let two = "refused: 22, two or more functions cover the PC, the first two are ";
        let two = format!("{two}0 (start +0x1000, size 32) and 1 (start +0x1040, size 16)\n{behind}");
        assert_eq!(told(Outcome::Disputed { first: 0, second: 1 }), two);
        let no_row = "refused: 23, no row of the function starts at or below the PC, in function 0";
        assert_eq!(told(Outcome::NoRow { function: 0 }), format!("{no_row} (start +0x1000, size 32)\n{behind}"));
    }

    #[test]
    fn what_is_asked_is_told_as_a_lookup_is() {
        let told = |outcome, compared| asked(&S, 0x40_1020, &Asked { outcome, compared });
        for pc in [0x40_1003, 0x40_1004, 0x40_1040] {
            let looked = answer(&S, pc, &reader::lookup(&S, 0x40_0000, pc));
            assert_eq!(asked(&S, pc, &reader::ask(&S, 0x40_0000, pc)), looked);
        }
        let no_row = answer(&S, 0x40_1020, &Answer { outcome: Outcome::NoRow { function: 1 }, compared: 4 });
        assert_eq!(told(AskedOutcome::NoRow { function: 1 }, 4), no_row);
        let short = "refused: 1, fewer than 28 bytes\nentries compared: 0\n";
        assert_eq!(told(AskedOutcome::Unsound(1), 0), short);
        let none = "refused: 21, no function that covers the PC was landed on\nlooked up: 0000000000401020\n";
        assert_eq!(told(AskedOutcome::NoFunction, 2), format!("{none}entries compared: 2\n"));
        let damaged = "the function landed on covers the PC and breaks one of the rules 9 to 13, in function 0";
        let damaged = format!("refused: 44, {damaged} (start +0x1000, size 32)\nlooked up: 0000000000401020\n");
        assert_eq!(told(AskedOutcome::Damaged { function: 0 }, 12), format!("{damaged}entries compared: 12\n"));
        let unsorted = "the sorted flag is not set, and only a sorted section can be asked";
        assert_eq!(told(AskedOutcome::Unsorted, 0), format!("refused: 45, {unsorted}\nentries compared: 0\n"));
    }

    #[test]
    fn several_answers_are_told_by_their_pcs() {
        let answers = [(0x40_1003, "one\n".to_string()), (1, "two\nlines\n".to_string())];
        assert_eq!(several(&answers), "PC 0000000000401003\none\nPC 0000000000000001\ntwo\nlines\n");
    }

    #[test]
    fn what_a_terminal_might_obey_is_made_visible() {
        assert_eq!(wrong::visible(b"a \\~\x1b[1m\n\xc3\x7f"), "a \\\\~\\x1b[1m\\x0a\\xc3\\x7f");
        assert_eq!(wrong::missing("\u{1b}"), "sframe: \\x1b: No such file or directory\n");
    }

    #[test]
    fn callers_and_traces_are_told_as_columns() {
        let cases = all();
        let (k10, k12) = (&cases[0].walks[0].1, &cases[0].walks[2].1);
        let caller = "caller:\nPC  0000000000401008\nSP  0000000000007008\nFP  0000000000007030\n";
        assert_eq!(step(&k10.step), format!("{caller}LR  0000000000000000\n"));
        let first = "    0  0000000000401044  0000000000007008  0000000000401008  0000000000007030\n";
        let second = "    1  0000000000401008  0000000000007040  0000000000000000  0000000000000000\n";
        let head = "frame  PC                CFA               RA                FP\n";
        let ended = "frames: 2\nended: 30, RA is 0: the outermost frame\n";
        assert_eq!(trace(0x40_1044, 2, k10), format!("{head}{first}{second}{ended}"));
        assert_eq!(trace(0x40_1044, 0, k10), format!("{head}{first}{second}{ended}limit in force: 128\n"));
        let ended = "frames: 1\nended: 28, a needed word is not wholly inside the stack window\n";
        assert_eq!(trace(0x40_1044, 2, k12), format!("{head}{first}{ended}at PC: 0000000000401008\n"));
    }

    #[test]
    fn wrong_arguments_are_told_by_their_names() {
        assert_eq!(wrong::count("list"), "sframe: 'list' takes FILE [INDEX]\n");
        assert_eq!(wrong::count("ask"), "sframe: 'ask' takes FILE ADDRESS PC...\n");
        assert_eq!(wrong::count("help"), "sframe: 'help' takes [COMMAND]\n");
        assert_eq!(wrong::count("version"), "sframe: 'version' takes no arguments\n");
        let walk = "FILE ADDRESS STACK STACK_ADDRESS PC SP FP LR";
        assert_eq!(wrong::count("why"), format!("sframe: 'why' takes FILE ADDRESS PC, or {walk} FIRST MASK\n"));
        assert_eq!(wrong::count("caller"), format!("sframe: 'caller' takes {walk} FIRST [MASK]\n"));
        assert_eq!(wrong::count("trace"), format!("sframe: 'trace' takes {walk} LIMIT [MASK]\n"));
        let address = "sframe: ADDRESS is not a hexadecimal number of 1 to 16 digits, leading zeros aside: 'xyz'\n";
        assert_eq!(wrong::number("ADDRESS", "xyz"), address);
        let mask = "sframe: MASK is not a hexadecimal number of 1 to 16 digits, leading zeros aside: '-1'\n";
        assert_eq!(wrong::number("MASK", "-1"), mask);
        let limit = "sframe: LIMIT is not a decimal number of 1 to 19 digits, leading zeros aside: '0x10'\n";
        assert_eq!(wrong::number("LIMIT", "0x10"), limit);
        let index = "sframe: INDEX is not a decimal number of 1 to 19 digits, leading zeros aside: ''\n";
        assert_eq!(wrong::number("INDEX", ""), index);
        assert_eq!(wrong::no_function(12, 2), "sframe: there is no function 12: the section has 2\n");
    }

    #[test]
    fn a_trace_without_frames_has_no_head() {
        let walk = &all()[0].walks[0].0;
        let old = walk.registers;
        let told = |ending| trace(old.pc, 2, &walk.stated(Step::Refused { old, number: 21 }, &[], ending));
        let none = "frames: 0\nended: 21, no function covers the PC\n";
        let none = format!("{none}at PC: 0000000000401044\nlooked up: 0000000000401044\n");
        assert_eq!(told(Ending::Refused(21)), none);
        assert_eq!(told(Ending::Refused(42)), "refused: 42, the limit is above 256\n");
        let unsound = "refused: 10, an entry has repeated blocks of size 0, in function 4\n";
        assert_eq!(told(Ending::Unsound { number: 10, index: 4 }), unsound);
        let signed = "refused: 24, the return address is signed, and no mask says by which bits\n";
        assert_eq!(step(&Step::Refused { old, number: 24 }), signed);
    }

    // The PC of the registers is another than the one that was looked up where they have no mark.
    #[test]
    fn what_was_looked_up_is_told_with_21_to_23() {
        let (walk, walked) = &all()[0].walks[1];
        let old = walk.registers;
        let refused = |number, pc, first| step(&Step::Refused { old: Registers { pc, first, ..old }, number });
        let two = "refused: 22, two or more functions cover the PC\nlooked up: 0000000000401020\n";
        assert_eq!(refused(22, 0x40_1021, 0), two);
        assert_eq!(refused(22, 0x40_1020, 7), two);
        let none = "refused: 21, no function covers the PC\nlooked up: ";
        assert_eq!(refused(21, 0, 1), format!("{none}0000000000000000\n"));
        assert_eq!(refused(21, 0, 0), format!("{none}nothing, since PC is 0 without the first-frame mark\n"));
        let frames = [[0x7008, 0x40_1008, 0x7030]];
        let told = trace(old.pc, 1, &walk.stated(walked.step, &frames, Ending::Refused(23)));
        let ended = "ended: 23, no row of the function starts at or below the PC\nat PC: 0000000000401008\n";
        assert!(told.ends_with(&format!("{ended}looked up: 0000000000401007\n")), "{told}");
    }
}
