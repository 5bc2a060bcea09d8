//! Sections too large to be stored as cases: those at the limit of 16,777,216 bytes, the benchmark's, and one whose
//! row counts add up only modulo 2^32.
#![forbid(unsafe_code)]

use crate::cases::{Case, Question};
use crate::maker::{FirstRow, Function, Machine, Row, Section, SORTED};
use crate::obvious::{described, halvings_of};
use crate::reader::{Answer, Ending, Outcome, Process, Registers, Step, Verdict};
use crate::stream::Random;
use crate::walk::{Walk, Walked};
use crate::ADDRESS;

const LIMIT: usize = 16_777_216;

/// The last entry of a section of about 16,777,216 bytes, as `of_length` fills it.
const LAST: u64 = 838_857;

type Edit = fn(&mut Section);

const AT_THE_LIMIT: [(&str, usize, Edit, Verdict); 8] = [
    ("ok_most_bytes", LIMIT, |_| (), Verdict::Accepted),
    ("2_one_byte_more", LIMIT + 1, |_| (), refused(2, 0)),
    ("2_one_byte_more_and_3", LIMIT + 1, |s| s.magic = [0, 0], refused(2, 0)),
    ("3_most_bytes", LIMIT, |s| s.magic = [0, 0], refused(3, 0)),
    ("9_last_of_most_bytes", LIMIT, |s| last(s).high_bits = 1, refused(9, LAST)),
    ("11_last_of_most_bytes", LIMIT, |s| last(s).first_row = FirstRow::PastEnd(1), refused(11, LAST)),
    ("14_last_of_most_bytes", LIMIT, |s| last(s).start = s.functions[0].start, refused(14, LAST)),
    ("15_most_bytes", LIMIT, |s| s.claims.rows = Some(0), refused(15, 0)),
];

const fn refused(number: u64, index: u64) -> Verdict {
    Verdict::Refused { number, index }
}

fn last(section: &mut Section) -> &mut Function {
    section.functions.last_mut().expect("the section has functions")
}

/// How many cases there are at the limit.
pub const AT_THE_LIMIT_COUNT: u64 = AT_THE_LIMIT.len() as u64;

/// The case at the limit of a number below the count.
pub fn at_the_limit(number: u64) -> Case {
    let (name, length, edit, expected) = AT_THE_LIMIT[number as usize];
    let mut section = of_length(length);
    edit(&mut section);
    Case::new(name, section.bytes(), expected).asked(questions(expected)).walked(vec![walk(expected)])
}

// From the last function to the first, both at their first rows, CFA being SP + 8, and no farther: the return address
// is one behind the first byte. A refused section refuses the step and the trace.
fn walk(verdict: Verdict) -> (Walk, Walked) {
    let pc_of = |function: u64| ADDRESS.wrapping_add_signed(start_of(function as usize));
    let registers = Registers { pc: pc_of(LAST), sp: 0x7000, fp: 0x7777, lr: 0, first: 1 };
    let ra = pc_of(0) + 1;
    let stack = [ra, 0].map(u64::to_le_bytes).concat();
    let walk =
        Walk { process: Process { section: ADDRESS, stack: 0x7000, mask: 0 }, registers, stack, limit: 64, words: 192 };
    let walked = match verdict {
        Verdict::Refused { number, index } => {
            let step = Step::Unsound { old: registers, number, index };
            walk.stated(step, &[], Ending::Unsound { number, index })
        }
        Verdict::Accepted => {
            let caller = Registers { pc: ra, sp: 0x7008, fp: 0x7777, lr: 0, first: 0 };
            let frames = [[0x7008, ra, 0x7777], [0x7010, 0, 0x7777]];
            walk.stated(Step::Caller(caller), &frames, Ending::Outermost)
        }
    };
    (walk, walked)
}

// Lookups in the first function, the last and one between, and outside of all; a refused section refuses each.
fn questions(verdict: Verdict) -> Vec<Question> {
    let rows = &described(&sharing(1, &rows_of_a_function()))[0].rows;
    let outcome = |function: Option<u64>, number: usize| match (verdict, function) {
        (Verdict::Refused { number, index }, _) => Outcome::SectionRefused { number, index },
        (_, None) => Outcome::NoFunction,
        (_, Some(function)) => Outcome::Found { function, number: number as u64, row: rows[number] },
    };
    let ask = |(begun, o, function, number): (u64, i64, Option<u64>, usize)| Question {
        address: ADDRESS,
        pc: ADDRESS.wrapping_add_signed(start_of(begun as usize) - 32 + o),
        expected: Answer {
            outcome: outcome(function, number),
            compared: if verdict == Verdict::Accepted { halvings_of(LAST + 1, begun) } else { 0 },
        },
        asked: None,
    };
    // So many functions that have begun, o in the last of them, and its row.
    let places = [
        (0, 31, None, 0),
        (1, 0, Some(0), 0),
        (1, 31, Some(0), 3),
        (LAST / 3, 1, Some(LAST / 3 - 1), 1),
        (LAST / 2, 30, Some(LAST / 2 - 1), 2),
        (LAST, 31, Some(LAST - 1), 3),
        (LAST + 1, 0, Some(LAST), 0),
        (LAST + 1, 31, Some(LAST), 3),
        (LAST + 1, 32, None, 0),
    ];
    places.map(ask).to_vec()
}

// A sorted section of exactly so many bytes, with as many entries as fit; they share four rows.
fn of_length(length: usize) -> Section {
    let row_bytes = rows_of_a_function().iter().map(|row| row.length(1)).sum::<usize>();
    let count = (length - 28 - row_bytes) / 20;
    let mut section = sharing(count, &rows_of_a_function());
    section.tail = vec![0xff; length - 28 - 20 * count - row_bytes];
    section
}

/// A sound sorted AMD64 section of adjoining functions that share two rows in 8 bytes, so that as many functions as a
/// section can have are described as a few are: 838,859 of them take 16,777,216 bytes.
pub fn many_functions(count: usize) -> Section {
    let mut section = sharing(count, &[Row::new(0, 0, &[8]), Row::new(1, 0, &[16, -16])]);
    section.tail = vec![0];
    section
}

/// Adjoining functions, each with four rows of its own.
pub fn functions_of_four_rows(count: usize) -> Section {
    let mut section = Section::new(Machine::Amd64);
    section.flags = SORTED;
    let framed = Row { sp_base: false, ..Row::new(4, 0, &[16, -16]) };
    let rows = [Row::new(0, 0, &[8]), Row::new(1, 0, &[16, -16]), framed, Row::new(31, 0, &[8])];
    section.functions = (0..count).map(|index| Function::new(start_of(index), 32, 0, rows.to_vec())).collect();
    section
}

/// How many rows each function of `functions_of_many_rows` has, and how far behind one function the next begins.
pub const ROWS_OF_MANY: u32 = 1_000;
pub const STEP_OF_MANY: u32 = 4_096;

/// 250 functions with rows of 13 bytes and 53,000 unused bytes before those of each, in a sorted AMD64 section of
/// 16,777,216 bytes.
pub fn functions_of_many_rows() -> Section {
    let row = |number: u32| Row::new(ROW_STEP * number, 2, &[8 + (number % 100) as i32, -16]);
    let rows: Vec<Row> = (0..ROWS_OF_MANY).map(row).collect();
    let mut section = Section::new(Machine::Amd64);
    section.flags = SORTED;
    for index in 0..250 {
        let mut function = Function::new(i64::from(STEP_OF_MANY * index), ROW_STEP * ROWS_OF_MANY, 2, rows.clone());
        function.gap = vec![0; 53_000];
        section.functions.push(function);
    }
    section.tail = vec![0; LIMIT - 28 - 250 * (20 + 13_000 + 53_000)];
    section
}

/// How far each row of a long function starts above the one before it.
pub const ROW_STEP: u32 = 2;

/// A function of many rows: how wide their starts and offsets are, by the row type and the size code, and whether all
/// have two offsets or every second one has the first alone.
#[derive(Clone, Copy, Debug)]
pub struct Long {
    pub rows: u32,
    pub row_type: u8,
    pub size_code: u8,
    pub alike: bool,
}

impl Long {
    /// It alone in a sorted AMD64 section. A million rows of the widest take 13,000,048 bytes.
    pub fn section(&self) -> Section {
        let row = |number: u32| {
            let count = if self.alike || number % 2 == 0 { 2 } else { 1 };
            Row::new(ROW_STEP * number, self.size_code, &[8 + (number % 100) as i32, -16][..count])
        };
        let mut section = Section::new(Machine::Amd64);
        section.flags = SORTED;
        let (size, rows) = (ROW_STEP * self.rows, (0..self.rows).map(row).collect());
        section.functions = vec![Function::new(start_of(0), size, self.row_type, rows)];
        section
    }
}

/// Those of `many_functions` in another order, without the flag.
pub fn many_functions_unsorted(count: usize) -> Section {
    let mut section = many_functions(count);
    section.flags = 0;
    let mut random = Random::new(count as u64);
    // The first keeps its place: the others share its rows.
    for last in (2..count).rev() {
        section.functions.swap(last, 1 + random.below(last as u64) as usize);
    }
    section
}

// Adjoining functions, all but the first with its rows.
fn sharing(count: usize, rows: &[Row]) -> Section {
    let mut section = Section::new(Machine::Amd64);
    section.flags = SORTED;
    section.functions = vec![Function::new(start_of(0), 32, 0, rows.to_vec())];
    section.functions.extend((1..count).map(|index| {
        let mut function = Function::new(start_of(index), 32, 0, Vec::new());
        function.first_row = FirstRow::SharedWith(0);
        function
    }));
    section
}

fn start_of(index: usize) -> i64 {
    32 * index as i64 - 0x4000_0000
}

// What a compiler writes for a function that keeps its frame pointer.
fn rows_of_a_function() -> [Row; 4] {
    let mut rows =
        [(0, &[8][..]), (1, &[16, -16]), (4, &[16, -16]), (31, &[8])].map(|(start, o)| Row::new(start, 0, o));
    rows[2].sp_base = false;
    rows
}

/// 65,536 entries that share 65,536 rows: their counts add up to 2^32, which the header's field shows as 0. Reading it
/// means reading a row 2^32 times.
pub fn sum_of_2_32() -> Case {
    let mut section = Section::new(Machine::Amd64);
    let rows = (0..65_536).map(|start| Row::new(start, 0, &[8])).collect();
    section.functions = vec![Function::new(0, 1, 1, rows)];
    let mut sharing = Function::new(0, 1, 1, Vec::new());
    sharing.first_row = FirstRow::SharedWith(0);
    section.functions.resize(65_536, sharing);
    section.claims.rows = Some(0);
    Case::new("15_sum_of_2_32", section.bytes(), refused(15, 0))
}

#[cfg(test)]
mod tests {
    use super::*;
    use crate::reader::{ask, check, functions, lookup};

    #[test]
    fn sections_at_the_limit_are_judged_as_stated() {
        for number in 0..AT_THE_LIMIT_COUNT {
            let case = at_the_limit(number);
            assert_eq!(case.section.len(), AT_THE_LIMIT[number as usize].1, "{}", case.name);
            assert_eq!(check(&case.section), case.expected, "{}", case.name);
            for question @ Question { address, pc, expected, .. } in &case.questions {
                assert_eq!(lookup(&case.section, *address, *pc), *expected, "{}, PC {pc:x}", case.name);
                assert_eq!(ask(&case.section, *address, *pc), case.asked_of(question), "{}, PC {pc:x}", case.name);
            }
            for (walk, expected) in &case.walks {
                assert_eq!(walk.by_reader(&case.section), *expected, "{}", case.name);
            }
        }
    }

    #[test]
    fn a_lookup_at_the_limit_compares_20_entries_at_most() {
        let compared = (0..=LAST + 1).map(|begun| halvings_of(LAST + 1, begun));
        assert_eq!(compared.max(), Some(20));
    }

    #[test]
    fn the_section_of_many_functions_is_sound_up_to_the_limit() {
        for count in [1, 1_000, 838_859] {
            let section = many_functions(count).bytes();
            assert_eq!((section.len(), check(&section)), (36 + 20 * count, Verdict::Accepted));
        }
        assert_eq!(36 + 20 * 838_859, LIMIT);
    }

    #[test]
    fn the_section_of_four_rows_is_sound() {
        let section = functions_of_four_rows(1_000).bytes();
        assert_eq!((section.len(), check(&section)), (28 + 34 * 1_000, Verdict::Accepted));
        assert!(functions(&section).iter().all(|function| function.rows.len() == 4));
    }

    #[test]
    fn the_section_of_many_rows_is_sound_and_has_the_most_bytes() {
        let section = functions_of_many_rows().bytes();
        assert_eq!((section.len(), check(&section)), (LIMIT, Verdict::Accepted));
        assert!(functions(&section).iter().all(|function| function.rows.len() == ROWS_OF_MANY as usize));
    }

    #[test]
    fn a_long_function_is_sound_and_its_rows_are_told_apart() {
        for (rows, row_type, size_code, alike) in [(100, 0, 0, true), (1_000_000, 2, 2, true), (10_000, 1, 0, false)] {
            let section = Long { rows, row_type, size_code, alike }.section().bytes();
            let fewer = if alike { 0 } else { rows as usize / 2 };
            let row_bytes = rows as usize * ((1 << row_type) + 1 + 2 * (1 << size_code)) - fewer * (1 << size_code);
            assert_eq!((section.len(), check(&section)), (48 + row_bytes, Verdict::Accepted));
            let (first, last) = (start_of(0), start_of(0) + i64::from(ROW_STEP * rows) - 1);
            for (d, number) in [(first, 0), (first + 3, 1), (last, rows - 1)] {
                let answer = lookup(&section, ADDRESS, ADDRESS.wrapping_add_signed(d));
                let Outcome::Found { row, number: found, .. } = answer.outcome else { panic!("{answer:?}") };
                let expected = (u64::from(number), ROW_STEP * number, 8 + i64::from(number % 100));
                assert_eq!((found, row.start, row.cfa_offset), expected);
            }
        }
    }

    #[test]
    fn the_unsorted_section_lists_the_same_functions() {
        let sorted = functions(&many_functions(1000).bytes());
        let mut unsorted = functions(&many_functions_unsorted(1000).bytes());
        assert_ne!(unsorted, sorted);
        unsorted.sort_by_key(|function| function.start);
        assert_eq!(unsorted, sorted);
    }

    #[test]
    #[ignore = "reads 2^32 rows: tens of seconds in a release build"]
    fn a_sum_is_not_taken_modulo_2_32() {
        let case = sum_of_2_32();
        assert_eq!(check(&case.section), case.expected);
    }
}
