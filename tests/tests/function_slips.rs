//! Shows that the stored sections can tell a wrong function of an index: every slip that a reader could make, made here
//! on purpose, gives another answer at some of the indexes that are asked for.

use suntimpani_tests::cases::{self, indexes};
use suntimpani_tests::reader::{self, function_at, FunctionAt, Header, Order, Verdict};

/// An index of a section, and the right answer.
struct Asked<'a> {
    section: &'a [u8],
    header: Option<Header>,
    verdict: Verdict,
    index: u64,
    right: FunctionAt,
}

type Slip = fn(&Asked) -> FunctionAt;

const SLIPS: [(&str, Slip); 35] = [
    // The checks.
    ("all checks are made", |a| if a.verdict == Verdict::Accepted { a.right } else { refused(a.verdict.number()) }),
    ("checks 9 to 15 are told beside the function", |a| FunctionAt { number: a.verdict.number(), ..a.right }),
    ("a refused header is not told", |a| FunctionAt { number: 0, ..a.right }),
    ("a refused header is told by 1", |a| FunctionAt { number: a.right.number.min(1), ..a.right }),
    ("every function of a refused header is known", |a| FunctionAt {
        known: a.right.known || a.right.number > 0,
        ..a.right
    }),
    ("a broken entry is not known", |a| a.unless_broken(FunctionAt::default())),
    ("a broken entry is told by its number", |a| a.unless_broken(refused(a.verdict.number()))),
    ("entries behind a broken one are not known", |a| a.unless_behind_the_fault()),
    ("an entry whose rows lie outside has none", |a| a.with(|a, f| f.rows *= u64::from(!a.is_broken_by(11)))),
    // The index.
    ("the index behind the last is known", |a| FunctionAt { known: a.right.known || a.is_count(0), ..a.right }),
    ("the index behind the last is a function", |a| if a.is_count(0) { a.read_at(a.index) } else { a.right }),
    ("the last function is not known", |a| if a.is_count(1) { FunctionAt::default() } else { a.right }),
    ("functions count from 1", |a| function_at(a.section, a.index.wrapping_sub(1))),
    ("an index has 32 bits", |a| function_at(a.section, a.index & 0xffff_ffff)),
    ("an index is signed", |a| FunctionAt {
        known: a.right.known || a.right.number == 0 && a.index >> 63 == 1,
        ..a.right
    }),
    ("the last function is told of every higher index", |a| function_at(a.section, a.index.min(a.count().max(1) - 1))),
    ("the first function is told of every index", |a| if a.right.known { function_at(a.section, 0) } else { a.right }),
    // Start, size and rows.
    ("start fields are told under flag 0x4", |a| a.with(|a, f| f.start -= a.position())),
    ("start fields count from themselves without flag 0x4", |a| a.with(|a, f| f.start += a.field() - a.position())),
    ("fields stand right behind the header", |a| a.with(|a, f| f.start -= a.position().min(a.auxiliary()))),
    ("starts are unsigned", |a| a.with(|a, f| f.start += if f.start < a.position() { 1 << 32 } else { 0 })),
    ("starts have 32 bits", |a| a.with(|_, f| f.start = (f.start as i32).into())),
    ("starts are told without their sign", |a| a.with(|_, f| f.start = f.start.abs())),
    ("a size is signed", |a| a.with(|_, f| f.size = f.size as i32 as u64)),
    ("the end is told for the size", |a| a.with(|_, f| f.size = f.size.wrapping_add_signed(f.start))),
    ("the size is that of one block", |a| a.with(|_, f| f.size = if f.repeated { f.repeat } else { f.size })),
    ("rows are those of the section", |a| a.with(|a, f| f.rows = a.header.map_or(0, |header| header.rows.into()))),
    ("rows are those up to the function", |a| a.with(|a, f| f.rows = a.rows_up_to_here())),
    ("a count of rows has 8 bits", |a| a.with(|_, f| f.rows &= 0xff)),
    // Blocks.
    ("the repeat size of a plain function is told", |a| a.with(|a, f| f.repeat = a.entry()[17].into())),
    ("a function is repeated by its repeat size", |a| a.with(|a, f| f.repeated = a.entry()[17] > 0)),
    ("blocks of size 0 are not repeated", |a| a.with(|_, f| f.repeated = f.repeat > 0)),
    ("the key's bit is that of repeated blocks", |a| a.with(|a, f| f.repeated = a.entry()[16] & 0x20 != 0)),
    ("a repeat size is signed", |a| a.with(|_, f| f.repeat = f.repeat as i8 as u64)),
    ("numbers are little-endian", |a| a.with(|a, f| a.as_little(f))),
];

fn refused(number: u64) -> FunctionAt {
    FunctionAt { number, ..FunctionAt::default() }
}

impl Asked<'_> {
    fn count(&self) -> u64 {
        self.header.map_or(0, |header| header.functions.into())
    }

    // Whether so many functions are left from the index on, in a section whose header is sound.
    fn is_count(&self, left: u64) -> bool {
        self.right.number == 0 && self.index.checked_add(left) == Some(self.count())
    }

    // The answer where something is another of a function that is known.
    fn with(&self, edit: fn(&Self, &mut FunctionAt)) -> FunctionAt {
        let mut edited = self.right;
        if edited.known {
            edit(self, &mut edited);
        }
        edited
    }

    fn is_broken_by(&self, number: u64) -> bool {
        self.verdict == Verdict::Refused { number, index: self.index }
    }

    // The answer, and another one where the entry itself breaks a rule.
    fn unless_broken(&self, otherwise: FunctionAt) -> FunctionAt {
        if (9..=14).any(|number| self.is_broken_by(number)) {
            otherwise
        } else {
            self.right
        }
    }

    fn unless_behind_the_fault(&self) -> FunctionAt {
        match self.verdict {
            Verdict::Refused { number: 9..=14, index } if index < self.index => FunctionAt::default(),
            _ => self.right,
        }
    }

    fn auxiliary(&self) -> i64 {
        self.header.map_or(0, |header| header.auxiliary.into())
    }

    // Where the entry stands, and its start field with it.
    fn field(&self) -> i64 {
        28 + self.auxiliary() + 20 * self.index as i64
    }

    // What is added to the start field.
    fn position(&self) -> i64 {
        let relative = self.header.is_some_and(|header| header.flags & 4 != 0);
        if relative {
            self.field()
        } else {
            0
        }
    }

    fn entry(&self) -> &[u8] {
        &self.section[self.field() as usize..][..20]
    }

    // What stands at the place of an entry, row bytes or not, if 20 bytes are there.
    fn read_at(&self, index: u64) -> FunctionAt {
        let mut section = self.section.to_vec();
        let taken = self.header.map(|header| header.row_bytes).filter(|row_bytes| *row_bytes >= 20);
        let Some(row_bytes) = taken else { return self.right };
        let big = section[0] == 0xde;
        let mut put = |at: usize, number: u32| {
            let bytes = if big { number.to_be_bytes() } else { number.to_le_bytes() };
            section[at..at + 4].copy_from_slice(&bytes);
        };
        put(8, index as u32 + 1);
        put(16, row_bytes - 20);
        put(24, 20 * (index as u32 + 1));
        function_at(&section, index)
    }

    fn rows_up_to_here(&self) -> u64 {
        (0..=self.index).map(|index| function_at(self.section, index).rows).sum()
    }

    fn as_little(&self, function: &mut FunctionAt) {
        let entry = self.entry();
        let word = |at: usize| i32::from_le_bytes([entry[at], entry[at + 1], entry[at + 2], entry[at + 3]]);
        if self.header.is_some_and(|header| header.order == Order::Big) {
            function.start = i64::from(word(0)) + self.position();
            function.size = (word(4) as u32).into();
            function.rows = (word(12) as u32).into();
        }
    }
}

#[test]
fn every_slip_is_noticed() {
    let (mut noticed, mut count) = (vec![0; SLIPS.len()], 0);
    for case in cases::all() {
        let (header, verdict) = (Header::read(&case.section), reader::check(&case.section));
        for index in indexes(&case.section) {
            let right = function_at(&case.section, index);
            let asked = Asked { section: &case.section, header, verdict, index, right };
            for ((_, slip), times) in SLIPS.iter().zip(&mut noticed) {
                *times += u32::from(slip(&asked) != right);
            }
            count += 1;
        }
    }
    println!("{} slips at {count} indexes", SLIPS.len());
    for ((name, _), times) in SLIPS.iter().zip(&noticed) {
        println!("{times:>5} indexes notice that {name}");
    }
    for ((name, _), times) in SLIPS.iter().zip(&noticed) {
        assert!(*times > 0, "no index notices that {name}");
    }
}
