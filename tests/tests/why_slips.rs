//! Shows that the stored records can tell a wrong explanation: every slip that one could make, made here on purpose,
//! explains some of them otherwise, though every answer is right.
//!
//! An answer is explained by its ways, a function for each thing that can go wrong. The right ways come to what is
//! expected of every stored record; a slip is the right ways but for one or two of them.

use suntimpani_tests::cases::{self, Why};
use suntimpani_tests::maker::RELATIVE;
use suntimpani_tests::obvious::{self, Meaning};
use suntimpani_tests::reader::{
    Base, Block, FoundRow, Function, LookupWhy, Near, Outcome, Place, Process, Refusal, Registers, SavedWord, StepWhy,
    Sum, Then, Unfound, Verdict,
};
use suntimpani_tests::reasons::Record;
use SavedWord::{Fp, Ra};

const TWO_64: i128 = 1 << 64;

/// A record to be explained, in a section that means this.
struct Scene<'a> {
    record: &'a Record,
    meaning: &'a Meaning,
    /// The functions with their start fields in place of their effective starts.
    by_fields: Vec<Function>,
}

/// Where a PC lies that no function covers.
struct Asked {
    address: u64,
    d: i128,
}

type Side = fn(&[Function], i128) -> Option<Near>;

/// What is nearest below and above.
type Sides = [Option<Near>; 2];

#[derive(Clone, Copy)]
struct Ways {
    // 21
    distance: fn(u64, u64) -> i128,
    functions: for<'a> fn(&'a Scene) -> &'a [Function],
    below: Side,
    above: Side,
    sides: fn(&Asked, Sides) -> Sides,
    // 22: whether a function counts, which indexes are told, and how many there are by all and by those told.
    counts: fn(&Function, i128) -> bool,
    indexes: fn(Vec<u64>) -> Vec<u64>,
    count: fn(&[u64], &[u64]) -> u64,
    // A row, and 23.
    offset: fn(&Function, i128) -> i128,
    number: fn(u64) -> u64,
    next: fn(&[Function], usize, usize) -> Option<u32>,
    first: fn(&Function) -> Option<u32>,
    found: fn(FoundRow) -> FoundRow,
    // A step: what comes before its row, in which order, and how it is told.
    before: &'static [u64],
    past: fn(&Record) -> StepWhy,
    refusal: fn(Refusal) -> Refusal,
    asked: fn(&Registers) -> Option<u64>,
    pc_told: fn(&Registers, u64) -> u64,
    // And what comes behind it.
    sum: fn(u64, i64) -> Sum,
    words: [SavedWord; 2],
    then: fn(&Record, FoundRow, Then) -> Then,
}

const RIGHT: Ways = Ways {
    distance: |address, pc| i128::from(pc) - i128::from(address),
    functions: |scene| &scene.meaning.functions,
    below: |functions, d| near(functions, lasts(functions).filter(|at| *at < d).max()),
    above: |functions, d| near(functions, firsts(functions).filter(|at| *at > d).min()),
    sides: |_, sides| sides,
    counts: covers,
    indexes: |all| all.into_iter().take(16).collect(),
    count: |all, _| all.len() as u64,
    offset: |function, d| match function.block {
        Block::Plain => d - start(function),
        Block::Repeated(size) => (d - start(function)) % i128::from(size),
    },
    number: |number| number,
    next: |functions, function, number| functions[function].rows.get(number + 1).map(|row| row.start),
    first: |function| function.rows.first().map(|row| row.start),
    found: |found| found,
    before: &[41, 1, 21],
    past: |record| StepWhy::PastTheEnd { stack: record.process.stack, length: record.stack.len() as u64 },
    refusal: |refusal| refusal,
    asked: |registers| registers.pc.checked_sub(u64::from(registers.first == 0)),
    pc_told: |_, pc| pc,
    sum: Sum::of,
    words: [Ra, Fp],
    then: |_, _, then| then,
};

fn start(function: &Function) -> i128 {
    function.start.into()
}

fn end(function: &Function) -> i128 {
    start(function) + i128::from(function.size)
}

fn covers(function: &Function, d: i128) -> bool {
    start(function) <= d && d < end(function)
}

fn of_some_size(functions: &[Function]) -> impl Iterator<Item = &Function> {
    functions.iter().filter(|function| function.size > 0)
}

fn lasts(functions: &[Function]) -> impl Iterator<Item = i128> + '_ {
    of_some_size(functions).map(|function| end(function) - 1)
}

fn firsts(functions: &[Function]) -> impl Iterator<Item = i128> + '_ {
    of_some_size(functions).map(start)
}

fn near(functions: &[Function], at: Option<i128>) -> Option<Near> {
    at.map(|at| near_by(functions.iter().position(|function| covers(function, at)), at))
}

fn near_by(function: Option<usize>, at: i128) -> Near {
    Near { at: at as i64, function: function.expect("a function covers the place") as u64 }
}

// With the highest of the functions that cover it.
fn highest(functions: &[Function], at: Option<i128>) -> Option<Near> {
    at.map(|at| near_by(functions.iter().rposition(|function| covers(function, at)), at))
}

// The function of one place with another told.
fn told_as(functions: &[Function], near: Option<Near>, told: fn(&Function) -> i128) -> Option<Near> {
    near.map(|near| Near { at: told(&functions[near.function as usize]) as i64, ..near })
}

// Of the functions that fit, the one that a number is highest of, with an address of its own.
fn by_highest(
    functions: &[Function],
    fits: impl Fn(&Function) -> bool,
    number: impl Fn(&Function) -> i128,
    told: fn(&Function) -> i128,
) -> Option<Near> {
    let fitting = functions.iter().enumerate().filter(|(_, function)| fits(function));
    let best = fitting.min_by_key(|(_, function)| -number(function));
    best.map(|(index, function)| Near { at: told(function) as i64, function: index as u64 })
}

fn last(function: &Function) -> i128 {
    end(function) - 1
}

// A size of 0 as if it were 1.
fn widened(functions: &[Function]) -> Vec<Function> {
    functions.iter().map(|function| Function { size: function.size.max(1), ..function.clone() }).collect()
}

// A size as if it had one byte more.
fn with_ends(functions: &[Function]) -> Vec<Function> {
    let one_more = |function: &Function| Function { size: function.size.saturating_add(1), ..function.clone() };
    functions.iter().map(one_more).collect()
}

fn moved(near: Option<Near>, by: i64) -> Option<Near> {
    near.map(|near| Near { at: near.at.wrapping_add(by), ..near })
}

fn or_0(near: Option<Near>) -> Option<Near> {
    near.or(Some(Near { at: 0, function: 0 }))
}

fn first_of_next(functions: &[Function], function: usize) -> Option<u32> {
    functions.get(function + 1).and_then(RIGHT.first)
}

fn next_if(functions: &[Function], function: usize, number: usize, told: fn(&Function, u32) -> bool) -> Option<u32> {
    (RIGHT.next)(functions, function, number).filter(|&next| told(&functions[function], next))
}

fn in_block(function: &Function, next: u32) -> bool {
    !matches!(function.block, Block::Repeated(size) if next >= size.into())
}

fn masked(function: &Function, d: i128) -> i128 {
    match function.block {
        Block::Plain => d - start(function),
        Block::Repeated(size) => (d - start(function)) & (i128::from(size) - 1),
    }
}

// RA's word in place of FP's.
fn of_ra(found: FoundRow, then: Then) -> Then {
    match (then, found.row.ra) {
        (Then::NotInside { word: Fp, cfa, stack, length, .. }, Place::AtOffset(offset)) => {
            Then::NotInside { word: Ra, cfa, offset, sum: Sum::of(cfa, offset), stack, length }
        }
        _ => then,
    }
}

fn with_window(then: Then, window: impl Fn(u64, u64) -> (u64, u64)) -> Then {
    match then {
        Then::NotInside { word, cfa, offset, sum, stack, length } => {
            let (stack, length) = window(stack, length);
            Then::NotInside { word, cfa, offset, sum, stack, length }
        }
        _ => then,
    }
}

fn with_base(record: &Record, then: Then, told: fn(&Registers) -> u64) -> Then {
    match then {
        Then::Outside { offset, sum, .. } => Then::Outside { base: told(&record.registers), offset, sum },
        _ => then,
    }
}

fn with_mark(then: Then, told: fn(u64) -> u64) -> Then {
    match then {
        Then::TooLow { caller_sp, sp, first } => Then::TooLow { caller_sp, sp, first: told(first) },
        Then::NoPlace { first } => Then::NoPlace { first: told(first) },
        _ => then,
    }
}

fn of_caller(then: Then, told: impl Fn(Registers, u64, u64) -> (Registers, u64, u64)) -> Then {
    match then {
        Then::Caller { caller, cfa, ra } => {
            let (caller, cfa, ra) = told(caller, cfa, ra);
            Then::Caller { caller, cfa, ra }
        }
        _ => then,
    }
}

fn without_sign(then: Then) -> Then {
    match then {
        Then::Outside { base, offset, sum } => Then::Outside { base, offset: offset.abs(), sum },
        Then::NotInside { word, cfa, offset, sum, stack, length } => {
            Then::NotInside { word, cfa, offset: offset.abs(), sum, stack, length }
        }
        _ => then,
    }
}

// From 0 and from 2^64, and not from the last address.
fn above_2_64(address: u64, offset: i64) -> Sum {
    match Sum::of(address, offset) {
        Sum::Above(by) => Sum::Above(by - 1),
        sum => sum,
    }
}

fn below_the_end(address: u64, offset: i64) -> Sum {
    match Sum::of(address, offset) {
        Sum::Below(by) => Sum::Below(by - 1),
        sum => sum,
    }
}

fn held_at_the_ends(address: u64, offset: i64) -> Sum {
    match Sum::of(address, offset) {
        Sum::Below(_) => Sum::At(0),
        Sum::Above(_) => Sum::At(u64::MAX),
        sum => sum,
    }
}

fn swapped(address: u64, offset: i64) -> Sum {
    match Sum::of(address, offset) {
        Sum::Below(by) => Sum::Above(by),
        Sum::Above(by) => Sum::Below(by),
        sum => sum,
    }
}

static SLIPS: [(&str, Ways); 86] = [
    // 21: which address, and whose.
    (
        "the nearest below is the last of the function with the highest start",
        Ways { below: |f, d| by_highest(f, |f| f.size > 0 && start(f) < d, start, last), ..RIGHT },
    ),
    (
        "the nearest below is a start",
        Ways { below: |f, d| by_highest(f, |f| f.size > 0 && start(f) < d, start, start), ..RIGHT },
    ),
    ("below is told by the function's start", Ways { below: |f, d| told_as(f, (RIGHT.below)(f, d), start), ..RIGHT }),
    ("below is told by the function's end", Ways { below: |f, d| told_as(f, (RIGHT.below)(f, d), end), ..RIGHT }),
    ("above is told by the function's last", Ways { above: |f, d| told_as(f, (RIGHT.above)(f, d), last), ..RIGHT }),
    (
        "the nearest above is that of the function that ends first",
        Ways { above: |f, d| by_highest(f, |f| f.size > 0 && start(f) > d, |f| -end(f), start), ..RIGHT },
    ),
    ("size 0 is covered, below", Ways { below: |f, d| (RIGHT.below)(&widened(f), d), ..RIGHT }),
    ("size 0 is covered, above", Ways { above: |f, d| (RIGHT.above)(&widened(f), d), ..RIGHT }),
    ("an end is covered", Ways { below: |f, d| (RIGHT.below)(&with_ends(f), d), ..RIGHT }),
    ("an end is covered, and below is not strict", Ways { below: |f, d| (RIGHT.below)(&with_ends(f), d + 1), ..RIGHT }),
    ("size 0 is covered, and below is not strict", Ways { below: |f, d| (RIGHT.below)(&widened(f), d + 1), ..RIGHT }),
    ("size 0 is covered, and above is not strict", Ways { above: |f, d| (RIGHT.above)(&widened(f), d - 1), ..RIGHT }),
    (
        "a tie below goes to the highest index",
        Ways { below: |f, d| highest(f, lasts(f).filter(|at| *at < d).max()), ..RIGHT },
    ),
    (
        "a tie above goes to the highest index",
        Ways { above: |f, d| highest(f, firsts(f).filter(|at| *at > d).min()), ..RIGHT },
    ),
    (
        "a tie below goes to the longest",
        Ways {
            below: |f, d| by_highest(f, |f| f.size > 0 && last(f) < d, |f| (last(f) << 40) - start(f), last),
            ..RIGHT
        },
    ),
    (
        "a tie below goes to the shortest",
        Ways {
            below: |f, d| by_highest(f, |f| f.size > 0 && last(f) < d, |f| (last(f) << 40) + start(f), last),
            ..RIGHT
        },
    ),
    (
        "a tie above goes to the longest",
        Ways {
            above: |f, d| by_highest(f, |f| f.size > 0 && start(f) > d, |f| end(f) - (start(f) << 40), start),
            ..RIGHT
        },
    ),
    (
        "a tie above goes to the shortest",
        Ways {
            above: |f, d| by_highest(f, |f| f.size > 0 && start(f) > d, |f| -end(f) - (start(f) << 40), start),
            ..RIGHT
        },
    ),
    (
        "the last entry before the PC is taken",
        Ways { below: |f, d| by_highest(f, |f| f.size > 0 && last(f) < d, |_| 0, last), ..RIGHT },
    ),
    (
        "the first entry behind the PC is taken",
        Ways { above: |f, d| by_highest(f, |f| f.size > 0 && start(f) > d, |_| 0, start), ..RIGHT },
    ),
    ("nothing is below the section", Ways { sides: |_, [below, above]| [below.filter(|b| b.at >= 0), above], ..RIGHT }),
    ("the sides are changed about", Ways { sides: |_, [below, above]| [above, below], ..RIGHT }),
    ("none is told as 0", Ways { sides: |_, sides| sides.map(or_0), ..RIGHT }),
    ("places count from the PC", Ways { sides: |a, s| s.map(|side| moved(side, -(a.d as i64))), ..RIGHT }),
    ("places are addresses", Ways { sides: |a, s| s.map(|side| moved(side, a.address as i64)), ..RIGHT }),
    ("places have 32 bits", Ways { sides: |_, s| s.map(|n| n.map(|n| Near { at: n.at as i32 as i64, ..n })), ..RIGHT }),
    ("places are start fields under flag 0x4", Ways { functions: |scene| &scene.by_fields, ..RIGHT }),
    ("the distance is of 64 bits", Ways { distance: |a, pc| i128::from(pc.wrapping_sub(a) as i64), ..RIGHT }),
    ("the distance is of 32 bits", Ways { distance: |a, pc| i128::from(pc.wrapping_sub(a) as i32), ..RIGHT }),
    ("the distance is never negative", Ways { distance: |a, pc| i128::from(pc.wrapping_sub(a)), ..RIGHT }),
    // 22: which, and how many.
    ("17 indexes are told", Ways { indexes: |all| all.into_iter().take(17).collect(), ..RIGHT }),
    ("15 indexes are told", Ways { indexes: |all| all.into_iter().take(15).collect(), ..RIGHT }),
    ("all indexes are told", Ways { indexes: |all| all, ..RIGHT }),
    ("two indexes are told", Ways { indexes: |all| all.into_iter().take(2).collect(), ..RIGHT }),
    ("the last 16 are told", Ways { indexes: |all| all[all.len().saturating_sub(16)..].to_vec(), ..RIGHT }),
    ("indexes fall", Ways { indexes: |all| (RIGHT.indexes)(all).into_iter().rev().collect(), ..RIGHT }),
    ("indexes count from 1", Ways { indexes: |all| (RIGHT.indexes)(all).iter().map(|i| i + 1).collect(), ..RIGHT }),
    ("indexes are those among the covering", Ways { indexes: |all| (0..all.len().min(16) as u64).collect(), ..RIGHT }),
    ("the number is cut at 16", Ways { count: |_, told| told.len() as u64, ..RIGHT }),
    ("the number is that of those not told", Ways { count: |all, told| (all.len() - told.len()) as u64, ..RIGHT }),
    ("size 0 covers its start", Ways { counts: |f, d| start(f) <= d && d < end(f).max(start(f) + 1), ..RIGHT }),
    ("the end is covered too", Ways { counts: |f, d| start(f) <= d && d <= end(f), ..RIGHT }),
    // A row, and 23.
    ("the offset is that before the remainder", Ways { offset: |f, d| d - start(f), ..RIGHT }),
    ("the offset is that of a mask", Ways { offset: masked, ..RIGHT }),
    ("the offset is from the section", Ways { offset: |_, d| d, ..RIGHT }),
    (
        "the offset is from the row",
        Ways { found: |f| FoundRow { offset: f.offset - f.row.start.min(f.offset), ..f }, ..RIGHT },
    ),
    ("rows count from 1", Ways { number: |number| number + 1, ..RIGHT }),
    (
        "the next row is the first of the next function",
        Ways { next: |f, i, n| (RIGHT.next)(f, i, n).or(first_of_next(f, i)), ..RIGHT },
    ),
    ("the next row is always that of the next function", Ways { next: |f, i, _| first_of_next(f, i), ..RIGHT }),
    ("a next row past the block is none", Ways { next: |f, i, n| next_if(f, i, n, in_block), ..RIGHT }),
    ("a next row past the size is none", Ways { next: |f, i, n| next_if(f, i, n, |f, n| n < f.size), ..RIGHT }),
    ("the next row is the last", Ways { next: |f, i, _| f[i].rows.last().map(|row| row.start), ..RIGHT }),
    ("there is never a next row", Ways { next: |_, _, _| None, ..RIGHT }),
    ("no next row is told as the size", Ways { next: |f, i, n| (RIGHT.next)(f, i, n).or(Some(f[i].size)), ..RIGHT }),
    ("the first row is the last", Ways { first: |f| f.rows.last().map(|row| row.start), ..RIGHT }),
    ("no rows are told as a first row at 0", Ways { first: |f| (RIGHT.first)(f).or(Some(0)), ..RIGHT }),
    ("there is never a first row", Ways { first: |_| None, ..RIGHT }),
    // Before a step's row.
    ("PC is told in place of the PC looked up", Ways { pc_told: |registers, _| registers.pc, ..RIGHT }),
    ("PC is explained in place of the PC looked up", Ways { asked: |registers| Some(registers.pc), ..RIGHT }),
    ("PC - 1 is explained with the mark too", Ways { asked: |registers| registers.pc.checked_sub(1), ..RIGHT }),
    (
        "PC 0 without the mark is explained as 2^64 - 1",
        Ways { asked: |r| (RIGHT.asked)(r).or(Some(u64::MAX)), ..RIGHT },
    ),
    (
        "PC 0 says that nothing is asked, with the mark",
        Ways { asked: |r| (RIGHT.asked)(r).filter(|_| r.pc > 0), ..RIGHT },
    ),
    ("the section comes before 41", Ways { before: &[1, 41, 21], ..RIGHT }),
    ("nothing asked comes before the section", Ways { before: &[41, 21, 1], ..RIGHT }),
    ("a refusal has index 0", Ways { refusal: |refusal| Refusal { index: 0, ..refusal }, ..RIGHT }),
    (
        "41 tells SP",
        Ways { past: |r| StepWhy::PastTheEnd { stack: r.registers.sp, length: r.stack.len() as u64 }, ..RIGHT },
    ),
    // Behind it.
    ("a sum wraps", Ways { sum: |address, offset| Sum::At(address.wrapping_add_signed(offset)), ..RIGHT }),
    ("a sum is held at the ends", Ways { sum: held_at_the_ends, ..RIGHT }),
    ("above counts from 2^64", Ways { sum: above_2_64, ..RIGHT }),
    ("below counts from -1", Ways { sum: below_the_end, ..RIGHT }),
    ("below and above are changed about", Ways { sum: swapped, ..RIGHT }),
    ("FP's word comes before RA's", Ways { words: [Fp, Ra], ..RIGHT }),
    ("RA's word is always told", Ways { then: |_, found, then| of_ra(found, then), ..RIGHT }),
    ("offsets have no sign", Ways { then: |_, _, then| without_sign(then), ..RIGHT }),
    ("the window is told by its end", Ways { then: |_, _, t| with_window(t, |s, l| (s, s.wrapping_add(l))), ..RIGHT }),
    ("the window's length is in words", Ways { then: |_, _, then| with_window(then, |s, l| (s, l / 8)), ..RIGHT }),
    ("the window begins at SP", Ways { then: |r, _, then| with_window(then, |_, l| (r.registers.sp, l)), ..RIGHT }),
    ("the base is always SP", Ways { then: |r, _, then| with_base(r, then, |registers| registers.sp), ..RIGHT }),
    ("the base is always FP", Ways { then: |r, _, then| with_base(r, then, |registers| registers.fp), ..RIGHT }),
    ("the mark is told as 0 or 1", Ways { then: |_, _, t| with_mark(t, |first| u64::from(first != 0)), ..RIGHT }),
    ("the mark has 32 bits", Ways { then: |_, _, t| with_mark(t, |first| u64::from(first as u32)), ..RIGHT }),
    ("RA is told after clearing", Ways { then: |_, _, t| of_caller(t, |c, cfa, _| (c, cfa, c.pc)), ..RIGHT }),
    (
        "the caller's PC is RA before clearing",
        Ways { then: |_, _, t| of_caller(t, |c, cfa, ra| (Registers { pc: ra, ..c }, cfa, ra)), ..RIGHT },
    ),
    ("CFA is told as the old SP", Ways { then: |r, _, t| of_caller(t, |c, _, ra| (c, r.registers.sp, ra)), ..RIGHT }),
    (
        "the caller has the old mark",
        Ways {
            then: |r, _, t| of_caller(t, |c, cfa, ra| (Registers { first: r.registers.first, ..c }, cfa, ra)),
            ..RIGHT
        },
    ),
    (
        "the caller's LR is RA",
        Ways { then: |_, _, t| of_caller(t, |c, cfa, ra| (Registers { lr: ra, ..c }, cfa, ra)), ..RIGHT },
    ),
];

impl Ways {
    fn lookup(&self, scene: &Scene) -> LookupWhy {
        match (scene.meaning.verdict, self.explain(scene, scene.record.registers.pc)) {
            (Verdict::Refused { number, index }, _) => LookupWhy::Unsound((self.refusal)(Refusal { number, index })),
            (Verdict::Accepted, Ok(found)) => LookupWhy::Found(found),
            (Verdict::Accepted, Err(why)) => LookupWhy::Unfound(why),
        }
    }

    fn explain(&self, scene: &Scene, pc: u64) -> Result<FoundRow, Unfound> {
        let (functions, address) = (&scene.meaning.functions, scene.record.process.section);
        let exact = (RIGHT.distance)(address, pc);
        match obvious::answer(scene.meaning.sorted, functions, address, pc).outcome {
            Outcome::Found { function, number, row } => {
                let offset = (self.offset)(&functions[function as usize], exact) as u32;
                let next = (self.next)(functions, function as usize, number as usize);
                Ok((self.found)(FoundRow { function, offset, number: (self.number)(number), row, next }))
            }
            Outcome::NoRow { function } => {
                let covering = &functions[function as usize];
                let (offset, first) = ((self.offset)(covering, exact) as u32, (self.first)(covering));
                Err(Unfound::NoRow { function, offset, first })
            }
            Outcome::Disputed { .. } => {
                let counted = functions.iter().zip(0..).filter(|(function, _)| (self.counts)(function, exact));
                let all: Vec<u64> = counted.map(|(_, index)| index).collect();
                let first = (self.indexes)(all.clone());
                Err(Unfound::Disputed { count: (self.count)(&all, &first), first })
            }
            _ => Err(self.nearest(scene, address, pc)),
        }
    }

    fn nearest(&self, scene: &Scene, address: u64, pc: u64) -> Unfound {
        let (functions, d) = ((self.functions)(scene), (self.distance)(address, pc));
        let sides = [(self.below)(functions, d), (self.above)(functions, d)];
        let [below, above] = (self.sides)(&Asked { address, d }, sides);
        Unfound::NoFunction { below, above }
    }

    fn step(&self, scene: &Scene) -> StepWhy {
        let Record { stack, process, registers, .. } = scene.record;
        for rule in self.before {
            match (rule, scene.meaning.verdict) {
                (41, _) if i128::from(process.stack) + stack.len() as i128 > TWO_64 => {
                    return (self.past)(scene.record)
                }
                (1, Verdict::Refused { number, index }) => {
                    return StepWhy::Unsound((self.refusal)(Refusal { number, index }));
                }
                (21, _) if (self.asked)(registers).is_none() => return StepWhy::NothingAsked,
                _ => {}
            }
        }
        let pc = (self.asked)(registers).expect("there is one to look up");
        let told = (self.pc_told)(registers, pc);
        match self.explain(scene, pc) {
            Err(why) => StepWhy::Unfound { pc: told, why },
            Ok(found) => {
                let then = (self.then)(scene.record, found, self.behind(scene, &found));
                StepWhy::Found { pc: told, found, then }
            }
        }
    }

    fn behind(&self, scene: &Scene, found: &FoundRow) -> Then {
        let Record { process: Process { mask, .. }, registers, .. } = scene.record;
        let Registers { sp, fp, lr, first, .. } = *registers;
        let row = &found.row;
        if row.signed && *mask == 0 {
            return Then::NoMask { signed: true, mask: 0 };
        }
        let (base, offset) = (if row.base == Base::Sp { sp } else { fp }, row.cfa_offset);
        let Some(cfa) = base.checked_add_signed(offset) else {
            return Then::Outside { base, offset, sum: (self.sum)(base, offset) };
        };
        if cfa < sp || cfa == sp && first == 0 {
            return Then::TooLow { caller_sp: cfa, sp, first };
        }
        if row.ra == Place::Register && first == 0 {
            return Then::NoPlace { first };
        }
        let place = |word| if word == Ra { row.ra } else { row.fp };
        let outside = self.words.into_iter().find(|&word| scene.saved(place(word), cfa, 0).is_none());
        if let Some(word) = outside {
            return self.not_inside(scene, word, place(word), cfa);
        }
        let saved = |word, register| scene.saved(place(word), cfa, register).expect("both words are inside");
        let (ra, fp) = (saved(Ra, lr), saved(Fp, fp));
        let pc = if row.signed { ra & !mask } else { ra };
        Then::Caller { caller: Registers { pc, sp: cfa, fp, lr, first: 0 }, cfa, ra }
    }

    fn not_inside(&self, scene: &Scene, word: SavedWord, place: Place, cfa: u64) -> Then {
        let Place::AtOffset(offset) = place else { unreachable!("a register is nowhere outside") };
        let (stack, length) = (scene.record.process.stack, scene.record.stack.len() as u64);
        Then::NotInside { word, cfa, offset, sum: (self.sum)(cfa, offset), stack, length }
    }
}

impl Scene<'_> {
    // A register's value, or the word of its place; none where that is not wholly inside the window.
    fn saved(&self, place: Place, cfa: u64, register: u64) -> Option<u64> {
        let Place::AtOffset(offset) = place else { return Some(register) };
        let at = i128::from(cfa) + i128::from(offset) - i128::from(self.record.process.stack);
        let bytes = *self.record.stack.get(usize::try_from(at).ok()?..)?.first_chunk()?;
        Some(if self.meaning.big { u64::from_be_bytes(bytes) } else { u64::from_le_bytes(bytes) })
    }
}

// Under flag 0x4 a field counts from its own position: behind the header, the auxiliary header and the entries before.
fn by_fields(section: &[u8], functions: &[Function]) -> Vec<Function> {
    let position = |index: i64| 28 + i64::from(section[7]) + 20 * index;
    let is_relative = section.get(3).is_some_and(|flags| flags & RELATIVE != 0);
    let field = |(function, index): (&Function, i64)| {
        let counts_from = if is_relative { position(index) } else { 0 };
        Function { start: function.start - counts_from, ..function.clone() }
    };
    functions.iter().zip(0..).map(field).collect()
}

/// At least so many records notice a slip.
const ENOUGH: u32 = 2;

#[test]
fn every_slip_is_noticed() {
    let (whys, mut noticed) = (cases::whys(), [0; SLIPS.len()]);
    for Why { name, record, lookup, step } in &whys {
        let meaning = Meaning::read(&record.section);
        let by_fields = by_fields(&record.section, &meaning.functions);
        let scene = Scene { record, meaning: &meaning, by_fields };
        let explained = |ways: &Ways| (ways.lookup(&scene), ways.step(&scene));
        let right = (lookup.clone(), step.clone());
        assert_eq!(explained(&RIGHT), right, "{name}: the right ways");
        for ((_, slip), times) in SLIPS.iter().zip(&mut noticed) {
            *times += u32::from(explained(slip) != right);
        }
    }
    println!("{} slips in {} records", SLIPS.len(), whys.len());
    for ((name, _), times) in SLIPS.iter().zip(noticed) {
        println!("{times:>5} records notice that {name}");
    }
    for ((name, _), times) in SLIPS.iter().zip(noticed) {
        assert!(times >= ENOUGH, "{times} records notice that {name}");
    }
}
