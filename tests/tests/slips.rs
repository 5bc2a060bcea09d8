//! Shows that the stored questions can tell a wrong lookup: every slip that a reader could make, made here on purpose,
//! gives another answer to some of them.

use suntimpani_tests::cases;
use suntimpani_tests::obvious;
use suntimpani_tests::reader::{functions, lookup, next_row, rows_of, Answer, Block, Function, Header};
use suntimpani_tests::reader::{NextRow, Outcome, Place, Row, RowsAt, Verdict};

/// A question about an accepted section, what the section means, and the right answer.
struct Asked<'a> {
    section: &'a [u8],
    header: Header,
    functions: &'a [Function],
    address: u64,
    pc: u64,
    right: Answer,
}

type Slip = fn(&Asked) -> Answer;

/// What a scan knows of a row that it passes: how many bytes the start has, and the info bytes of the row, of the row
/// before it and of the first; its own where there is none before.
struct Passed {
    width: usize,
    info: u8,
    before: u8,
    first: u8,
}

const SLIPS: [(&str, Slip); 45] = [
    ("the later of the covering entries wins", |a| a.by_one(|covering| covering[covering.len() - 1])),
    ("the first of the covering entries wins", |a| a.by_one(|covering| covering[0])),
    ("the two highest indexes are told", |a| a.by_two(|all| (all[all.len() - 2], all[all.len() - 1]))),
    ("the lowest and the highest index are told", |a| a.by_two(|all| (all[0], all[all.len() - 1]))),
    ("the higher index comes first", |a| a.by_two(|all| (all[1], all[0]))),
    ("functions that have no row there do not count", |a| a.with(|a, f, _| f.size *= u32::from(a.has_row(f)))),
    ("the distance is of 64 bits", |a| a.at(a.pc.wrapping_sub(a.address) as i64)),
    ("the distance is of 32 bits", |a| a.at((a.pc.wrapping_sub(a.address) as i32).into())),
    ("the distance is never negative", |a| a.at(a.pc.wrapping_sub(a.address).min(1 << 62) as i64)),
    ("PC - 1 is looked up", |a| a.at_pc(a.pc.saturating_sub(1))),
    ("PC - 1 is looked up, and PC 0 wraps", |a| a.at_pc(a.pc.wrapping_sub(1))),
    ("start fields are the starts under flag 0x4", |a| a.with(|a, f, index| f.start -= a.position(index))),
    ("fields stand right behind the header", |a| a.with(|a, f, index| f.start -= a.position(index).min(a.auxiliary()))),
    ("starts count from the first field", |a| a.with(|a, f, index| f.start += a.position(0) - a.position(index))),
    ("a size is signed", |a| a.with(|_, f, _| f.size = (f.size as i32).max(0) as u32)),
    ("a size of 0 covers the start", |a| a.with(|_, f, _| f.size = f.size.max(1))),
    ("the end is covered", |a| a.with(|_, f, _| f.size = f.size.saturating_add(1))),
    ("the last byte is not covered", |a| a.with(|_, f, _| f.size = f.size.saturating_sub(1))),
    ("f0 is 240", |a| a.with(|_, f, _| f.rows.iter_mut().for_each(unsigned_bytes))),
    ("the row is the first that fits", |a| a.by_row(|f, o| f.rows.iter().position(|row| i128::from(row.start) <= o))),
    ("the row is one that starts below o", |a| {
        a.by_row(|f, o| f.rows.iter().rposition(|row| i128::from(row.start) < o))
    }),
    ("row starts are signed", |a| a.by_row(|f, o| f.rows.iter().rposition(|row| i128::from(row.start as i32) <= o))),
    ("there is always a row", |a| a.by_row(|f, o| last_row(f, o).or_else(|| (0..f.rows.len()).next()))),
    ("a place in a block is a mask", |a| a.by_place(|_, within, repeat| within & (repeat - 1))),
    ("a place in a block counts from the section", |a| a.by_place(|d, _, repeat| d.rem_euclid(repeat))),
    ("blocks are not repeated", |a| a.with(|_, f, _| f.block = Block::Plain)),
    ("a repeat size counts in a plain function", |a| a.with(|a, f, index| f.block = a.block_by_size(index))),
    ("the signed bit counts on AMD64", |a| a.as_aarch64(|row, other| row.signed = other.signed)),
    ("the second offset is that of RA on AMD64", |a| a.as_aarch64(|row, other| row.ra = other.ra)),
    ("a row is passed by the length of the first", |a| a.by_scan(|p| p.width + 1 + count(p.first) * size(p.first))),
    ("a row is passed by the length of the one before", |a| {
        a.by_scan(|p| p.width + 1 + count(p.before) * size(p.before))
    }),
    ("offsets are passed as bytes", |a| a.by_scan(|p| p.width + 1 + count(p.info))),
    ("offsets are passed as wide as those of the first", |a| {
        a.by_scan(|p| p.width + 1 + count(p.info) * size(p.first))
    }),
    ("as many offsets are passed as the first has", |a| a.by_scan(|p| p.width + 1 + count(p.first) * size(p.info))),
    ("the signed bit is one of the offset size", |a| a.by_scan(|p| p.width + 1 + (count(p.info) << (p.info >> 5)))),
    ("a row is passed by one offset too many", |a| a.by_scan(|p| p.width + 1 + (count(p.info) + 1) * size(p.info))),
    ("a row is passed without its info byte", |a| a.by_scan(|p| p.width + count(p.info) * size(p.info))),
    ("a row has the offset for CFA of the one before", |a| {
        a.by_passed(|row, passed| row.cfa_offset = passed.last().map_or(row.cfa_offset, |before| before.cfa_offset))
    }),
    ("a place of FP that was passed is kept", |a| a.by_passed(keep_fp)),
    ("rows of the same offsets are one", |a| {
        a.by_row(|f, o| last_row(f, o).map(|last| (0..=last).rfind(|&row| row == 0 || !alike(f, row)).unwrap_or(0)))
    }),
    ("a run of rows is passed to its end", |a| {
        a.by_row(|f, o| {
            last_row(f, o).map(|last| (last + 1..f.rows.len()).find(|&r| !alike(f, r)).unwrap_or(f.rows.len()) - 1)
        })
    }),
    ("every section is searched by halving", |a| a.by_halving()),
    ("a function that covers ends the halving", |a| {
        a.counting(|a| if a.sorted() { halvings(a, true) } else { a.right.compared })
    }),
    ("unsorted sections are counted by halving", |a| a.counting(|a| halvings(a, false))),
    ("sorted sections are counted whole", |a| a.counting(|a| a.functions.len() as u64)),
];

#[test]
fn every_slip_is_noticed() {
    let mut noticed = [0; SLIPS.len()];
    for_each_question(|asked| {
        for ((_, slip), times) in SLIPS.iter().zip(&mut noticed) {
            *times += u32::from(slip(asked) != asked.right);
        }
    });
    for ((name, _), times) in SLIPS.iter().zip(noticed) {
        println!("{times:>5} questions notice that {name}");
    }
    for ((name, _), times) in SLIPS.iter().zip(noticed) {
        assert!(times > 0, "no question notices that {name}");
    }
}

// The slips in a row's length are made in a scan that is right with the right length.
#[test]
fn the_right_length_comes_to_the_right_answer() {
    let right: Slip = |a| a.by_scan(|p| p.width + 1 + count(p.info) * size(p.info));
    for_each_question(|asked| assert_eq!(right(asked), asked.right, "PC {:x}, section {:x?}", asked.pc, asked.section));
}

// Every stored question about an accepted section.
fn for_each_question(mut ask: impl FnMut(&Asked)) {
    for case in cases::all().iter().filter(|case| case.expected == Verdict::Accepted) {
        let header = Header::read(&case.section).expect("an accepted section has a header");
        let functions = functions(&case.section);
        for question in &case.questions {
            let (address, pc, right) = (question.address, question.pc, question.expected);
            ask(&Asked { section: &case.section, header, functions: &functions, address, pc, right });
        }
    }
}

impl Asked<'_> {
    fn sorted(&self) -> bool {
        self.header.flags & 1 != 0
    }

    fn distance(&self) -> i128 {
        i128::from(self.pc) - i128::from(self.address)
    }

    // What is added to an entry's start field.
    fn position(&self, index: usize) -> i64 {
        if self.header.flags & 4 == 0 {
            return 0;
        }
        28 + self.auxiliary() + 20 * index as i64
    }

    fn auxiliary(&self) -> i64 {
        self.header.auxiliary.into()
    }

    fn answer(&self, functions: &[Function]) -> Answer {
        obvious::answer(self.sorted(), functions, self.address, self.pc)
    }

    // The answer where every function is another.
    fn with(&self, edit: fn(&Self, &mut Function, usize)) -> Answer {
        let mut edited = self.functions.to_vec();
        edited.iter_mut().enumerate().for_each(|(index, function)| edit(self, function, index));
        self.answer(&edited)
    }

    // The answer at another PC.
    fn at_pc(&self, pc: u64) -> Answer {
        obvious::answer(self.sorted(), self.functions, self.address, pc)
    }

    // The answer at another distance.
    fn at(&self, d: i64) -> Answer {
        const MIDDLE: u64 = 1 << 63;
        obvious::answer(self.sorted(), self.functions, MIDDLE, MIDDLE.wrapping_add_signed(d))
    }

    fn covers(&self, index: usize) -> bool {
        let (start, size) = (i128::from(self.functions[index].start), i128::from(self.functions[index].size));
        (start..start + size).contains(&self.distance())
    }

    fn covering(&self) -> Vec<usize> {
        (0..self.functions.len()).filter(|&index| self.covers(index)).collect()
    }

    // The answer where one of several covering functions is taken.
    fn by_one(&self, choose: fn(&[usize]) -> usize) -> Answer {
        let Outcome::Disputed { .. } = self.right.outcome else { return self.right };
        let chosen = choose(&self.covering());
        let mut others_empty = self.functions.to_vec();
        others_empty.iter_mut().enumerate().filter(|(index, _)| *index != chosen).for_each(|(_, f)| f.size = 0);
        self.answer(&others_empty)
    }

    // The answer where others of the covering functions are told.
    fn by_two(&self, choose: fn(&[usize]) -> (usize, usize)) -> Answer {
        let Outcome::Disputed { .. } = self.right.outcome else { return self.right };
        let (first, second) = choose(&self.covering());
        let outcome = Outcome::Disputed { first: first as u64, second: second as u64 };
        Answer { outcome, ..self.right }
    }

    // The function that is answered with, by its index.
    fn function(&self) -> Option<(u64, &Function)> {
        match self.right.outcome {
            Outcome::Found { function, .. } | Outcome::NoRow { function } => {
                Some((function, &self.functions[function as usize]))
            }
            _ => None,
        }
    }

    // The answer where the row is chosen in another way.
    fn by_row(&self, choose: fn(&Function, i128) -> Option<usize>) -> Answer {
        let Some((index, function)) = self.function() else { return self.right };
        let outcome = match choose(function, place_in(function, self.distance())) {
            Some(number) => Outcome::Found { function: index, number: number as u64, row: function.rows[number] },
            None => Outcome::NoRow { function: index },
        };
        Answer { outcome, ..self.right }
    }

    // The answer where the place in a repeated block is worked out in another way, from d, o and the repeat size.
    fn by_place(&self, place: fn(i128, i128, i128) -> i128) -> Answer {
        let Some((index, function)) = self.function() else { return self.right };
        let Block::Repeated(repeat) = function.block else { return self.right };
        let d = self.distance();
        let outcome = match last_row(function, place(d, d - i128::from(function.start), repeat.into())) {
            Some(number) => Outcome::Found { function: index, number: number as u64, row: function.rows[number] },
            None => Outcome::NoRow { function: index },
        };
        Answer { outcome, ..self.right }
    }

    // The answer where a row that is passed is followed by what stands so many bytes behind its place.
    fn by_scan(&self, length: fn(&Passed) -> usize) -> Answer {
        let Some((function, meant)) = self.function() else { return self.right };
        let o = place_in(meant, self.distance());
        let mut place = rows_of(self.section, function);
        let width = 1 << place.row_type;
        let info_at = |place: RowsAt| self.section[place.at as usize + width];
        let mut outcome = Outcome::NoRow { function };
        let mut infos = None;
        for number in 0.. {
            let NextRow { row: Some(row), rest } = next_row(self.section, place) else { break };
            if i128::from(row.start) > o {
                break;
            }
            outcome = Outcome::Found { function, number, row };
            let info = info_at(place);
            let (first, before) = infos.unwrap_or((info, info));
            infos = Some((first, info));
            place = RowsAt { at: place.at + length(&Passed { width, info, before, first }) as u64, ..rest };
        }
        Answer { outcome, ..self.right }
    }

    // The answer where the row found is changed by those that were passed before it.
    fn by_passed(&self, change: fn(&mut Row, &[Row])) -> Answer {
        let mut answer = self.right;
        if let Outcome::Found { function, number, row } = &mut answer.outcome {
            change(row, &self.functions[*function as usize].rows[..*number as usize]);
        }
        answer
    }

    fn has_row(&self, function: &Function) -> bool {
        last_row(function, place_in(function, self.distance())).is_some()
    }

    // The block that the repeat size of an entry asks for, whatever its info.
    fn block_by_size(&self, index: usize) -> Block {
        let entry = 28 + usize::from(self.header.auxiliary) + 20 * index;
        match self.section[entry + 17] {
            0 => Block::Plain,
            size => Block::Repeated(size),
        }
    }

    // The answer where something of an AMD64 row is taken for what the same bytes are in an AArch64 section.
    fn as_aarch64(&self, take: fn(&mut Row, &Row)) -> Answer {
        let mut answer = self.right;
        if self.header.abi == 3 {
            let mut section = self.section.to_vec();
            (section[4], section[6]) = (2, 0);
            let other = lookup(&section, self.address, self.pc).outcome;
            if let (Outcome::Found { row, .. }, Outcome::Found { row: other, .. }) = (&mut answer.outcome, &other) {
                take(row, other);
            }
        }
        answer
    }

    // The answer where only the last function that halving passes is tried.
    fn by_halving(&self) -> Answer {
        let d = self.distance();
        let (mut low, mut high) = (0, self.functions.len());
        while low < high {
            let middle = (low + high) / 2;
            if i128::from(self.functions[middle].start) <= d {
                low = middle + 1;
            } else {
                high = middle;
            }
        }
        let mut others_empty = self.functions.to_vec();
        others_empty.iter_mut().enumerate().filter(|(index, _)| index + 1 != low).for_each(|(_, f)| f.size = 0);
        self.answer(&others_empty)
    }

    fn counting(&self, count: fn(&Self) -> u64) -> Answer {
        Answer { compared: count(self), ..self.right }
    }
}

fn place_in(function: &Function, d: i128) -> i128 {
    let within = d - i128::from(function.start);
    match function.block {
        Block::Plain => within,
        Block::Repeated(size) => within % i128::from(size),
    }
}

fn last_row(function: &Function, o: i128) -> Option<usize> {
    function.rows.iter().rposition(|row| i128::from(row.start) <= o)
}

// How many offsets an info byte announces, and how many bytes each has.
fn count(info: u8) -> usize {
    usize::from(info >> 1 & 0xf)
}

fn size(info: u8) -> usize {
    1 << (info >> 5 & 0x3)
}

// Whether a row has what the one before it has, but for its start.
fn alike(function: &Function, number: usize) -> bool {
    let (row, before) = (function.rows[number], function.rows[number - 1]);
    Row { start: 0, ..row } == Row { start: 0, ..before }
}

// A row without a place of FP has that of the last row that was passed and has one.
fn keep_fp(row: &mut Row, passed: &[Row]) {
    let kept = passed.iter().rev().map(|before| before.fp).find(|&fp| fp != Place::Register);
    if let (Place::Register, Some(fp)) = (row.fp, kept) {
        row.fp = fp;
    }
}

// Offsets that could be of one byte, taken as unsigned.
fn unsigned_bytes(row: &mut Row) {
    let unsigned = |offset: i64| if (-128..0).contains(&offset) { offset + 256 } else { offset };
    let unsigned_place = |place: Place| match place {
        Place::AtOffset(offset) => Place::AtOffset(unsigned(offset)),
        Place::Register => Place::Register,
    };
    (row.cfa_offset, row.fp) = (unsigned(row.cfa_offset), unsigned_place(row.fp));
}

// The comparisons of the halving rule; they may end where an entry covers the PC.
fn halvings(asked: &Asked, ends_at_cover: bool) -> u64 {
    let d = asked.distance();
    let (mut low, mut high, mut compared) = (0, asked.functions.len(), 0);
    while low < high {
        let middle = (low + high) / 2;
        compared += 1;
        if ends_at_cover && asked.covers(middle) {
            break;
        }
        if i128::from(asked.functions[middle].start) <= d {
            low = middle + 1;
        } else {
            high = middle;
        }
    }
    compared
}
