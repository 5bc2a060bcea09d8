//! Shows that the stored walks can tell a wrong step and a wrong trace: every slip that a reader could make, made here
//! on purpose, comes to something else in some of them.
//!
//! A walk is made by its ways, a function for each thing that can go wrong. The right ways come to what is expected of
//! every stored walk; a slip is the right ways but for one or two of them. Two slips are not among them, since no
//! answer can tell them: FP's word asked for before RA's, where both are 28; and 28 before 27 alone, since a row that
//! leaves RA in LR asks for no word.

use suntimpani_tests::cases;
use suntimpani_tests::obvious::{self, Meaning};
use suntimpani_tests::reader::{
    functions, Base, Ending, Function, Outcome, Place, Registers, Row, Step, Traced, Verdict,
};
use suntimpani_tests::walk::{lent, Walk, Walked};

const TWO_64: i128 = 1 << 64;

/// A walk to be made, in a section that means this.
struct Scene<'a> {
    walk: &'a Walk,
    meaning: &'a Meaning,
    amd64: bool,
    /// The same bytes as an AArch64 section's, where the section is an AMD64 one: other places, and signed bits.
    as_aarch64: Option<&'a Meaning>,
}

/// A row as it was found, and the same bytes as they would be on AArch64.
struct Found {
    row: Row,
    on_aarch64: Row,
}

/// A caller before the bits of the mask are cleared from anything: its PC is RA as read.
struct AsRead<'a> {
    scene: &'a Scene<'a>,
    found: &'a Found,
    ra_place: Place,
    mask: u64,
    caller: Registers,
}

impl AsRead<'_> {
    // The caller where something is done to the RA of a signed row, by RA and the mask.
    fn if_signed(&self, done: fn(u64, u64) -> u64) -> Registers {
        let pc = if self.found.row.signed { done(self.caller.pc, self.mask) } else { self.caller.pc };
        Registers { pc, ..self.caller }
    }

    // The caller with RA cleared, or as it was read.
    fn cleared_if(&self, cleared: bool) -> Registers {
        let pc = if cleared { clear(self.caller.pc, self.mask) } else { self.caller.pc };
        Registers { pc, ..self.caller }
    }

    // Another word of the caller as it would be if it were signed as RA is.
    fn like_ra(&self, word: u64) -> u64 {
        if self.found.row.signed {
            clear(word, self.mask)
        } else {
            word
        }
    }

    fn in_lr(&self) -> bool {
        self.ra_place == Place::Register
    }
}

fn clear(word: u64, mask: u64) -> u64 {
    word & !mask
}

/// A caller, and its RA as it was read.
struct Came {
    caller: Registers,
    read: u64,
}

/// What an RA is used for.
#[derive(Clone, Copy, PartialEq, Eq)]
enum Use {
    /// A step hands it back.
    Step,
    /// It is written.
    Frame,
    /// It is held against 0.
    Ending,
    /// The next step starts from it.
    Next,
}

#[derive(Clone, Copy)]
struct Ways {
    /// In which order the rules stand: before a step, in it, and before a trace. 1 stands for 1 to 15, and 21 before a
    /// step for PC 0 without the mark.
    before_step: &'static [u64],
    in_step: &'static [u64],
    before_trace: &'static [u64],
    past_the_end: fn(u64, usize) -> bool,
    has_mark: fn(u64) -> bool,
    /// PC as it counts, by the one handed in and the mask; what is looked up by it and whether there is a mark, if
    /// anything is; and the PC that a row's offset counts to.
    pc: fn(u64, u64) -> u64,
    looked_up: fn(u64, bool) -> Option<u64>,
    offset_from: fn(u64, u64) -> u64,
    /// The mask in force, by the one lent and whether there is a mark; 24 by that mask; and what is cleared by it.
    mask: fn(u64, bool) -> u64,
    no_mask_for: fn(&Scene, &Found, u64) -> bool,
    cleared: fn(&AsRead) -> Registers,
    /// The RA for a use, by the one as read and the cleared one.
    ra_for: fn(Use, u64, u64) -> u64,
    cfa: fn(u64, i64) -> i128,
    is_outside: fn(i128) -> bool,
    too_low: fn(i128, u64, bool) -> bool,
    trusts_lr: fn(bool) -> bool,
    ra: fn(&Scene, &Found, bool) -> Place,
    fp: fn(&Scene, &Found) -> Place,
    /// The place that must be in the window where RA has this one.
    asked: fn(Place) -> Place,
    /// What a place counts from, by CFA and SP.
    counts_from: fn(i128, u64) -> i128,
    /// The word at an address in a window of so many bytes: where it lies in it, if it does.
    place: fn(i128, u64, usize) -> Option<i128>,
    is_big: fn(bool) -> bool,
    /// The caller as it is handed back, and the old registers with a refusal.
    handed_back: fn(&Registers, Registers) -> Registers,
    old: fn(Registers, i128) -> Registers,
    too_high: fn(u64) -> bool,
    in_force: fn(u64) -> u64,
    words_asked: fn(u64) -> u64,
    first_mark: fn(u64) -> u64,
    /// Where a step of a trace starts, by the trace's first registers and those of the last frame.
    starts_at: fn(Registers, Registers) -> Registers,
    frame: fn(&Registers) -> Vec<u64>,
    ending: fn(&Registers, bool) -> Option<Ending>,
    /// What is done to the words behind the frames.
    left: fn(&mut [u64]),
    index: fn(u64) -> u64,
}

const RIGHT: Ways = Ways {
    before_step: &[41, 1, 21],
    in_step: &[24, 25, 26, 27, 28],
    before_trace: &[41, 42, 43, 1],
    past_the_end: |address, length| i128::from(address) + length as i128 > TWO_64,
    has_mark: |first| first != 0,
    pc: |pc, _| pc,
    looked_up: |pc, marked| if marked { Some(pc) } else { pc.checked_sub(1) },
    offset_from: |_, looked_up| looked_up,
    mask: |mask, _| mask,
    no_mask_for: |_, found, mask| found.row.signed && mask == 0,
    cleared: |read| read.if_signed(clear),
    ra_for: |_, _, cleared| cleared,
    cfa: |base, offset| i128::from(base) + i128::from(offset),
    is_outside: |cfa| !(0..TWO_64).contains(&cfa),
    too_low: |cfa, sp, marked| cfa < sp.into() || cfa == sp.into() && !marked,
    trusts_lr: |marked| marked,
    ra: |_, found, _| found.row.ra,
    fp: |_, found| found.row.fp,
    asked: |place| place,
    counts_from: |cfa, _| cfa,
    place: |at, window, length| wholly_inside(at - i128::from(window), length),
    is_big: |big| big,
    handed_back: |_, caller| caller,
    old: |old, _| old,
    too_high: |limit| limit > 256,
    in_force: |limit| if limit == 0 { 128 } else { limit },
    words_asked: |limit| 3 * if limit == 0 { 128 } else { limit.min(256) },
    first_mark: |_| 1,
    starts_at: |_, last| last,
    frame: |caller| vec![caller.sp, caller.pc, caller.fp],
    ending: |caller, full| match caller.pc {
        0 => Some(Ending::Outermost),
        _ => full.then_some(Ending::Full),
    },
    left: |_| (),
    index: |index| index,
};

fn wholly_inside(place: i128, length: usize) -> Option<i128> {
    (0 <= place && place + 8 <= length as i128).then_some(place)
}

static SLIPS: [(&str, Ways); 138] = [
    // RA.
    ("LR is trusted in later frames", Ways { trusts_lr: |_| true, ..RIGHT }),
    ("LR is not trusted in the first frame", Ways { trusts_lr: |_| false, ..RIGHT }),
    ("RA is in LR in the first frame, though it was saved", Ways { ra: in_lr_if_first, ..RIGHT }),
    ("RA is at CFA - 8 on AArch64", Ways { ra: |_, _, _| Place::AtOffset(-8), ..RIGHT }),
    ("RA is at the second offset on AMD64", Ways { ra: |_, found, _| found.on_aarch64.ra, ..RIGHT }),
    (
        "28 comes before 27, a word below CFA being asked for",
        Ways { asked: below_cfa, in_step: &[24, 25, 26, 28, 27], ..RIGHT },
    ),
    // CFA.
    ("CFA = SP is accepted without the mark", Ways { too_low: |cfa, sp, _| cfa < sp.into(), ..RIGHT }),
    ("CFA = SP is refused with the mark", Ways { too_low: |cfa, sp, _| cfa <= sp.into(), ..RIGHT }),
    ("CFA below SP is accepted in the first frame", Ways { too_low: |cfa, sp, m| cfa <= sp.into() && !m, ..RIGHT }),
    ("CFA below SP is accepted", Ways { too_low: |cfa, sp, m| cfa == sp.into() && !m, ..RIGHT }),
    (
        "CFA one above SP is refused",
        Ways { too_low: |cfa, sp, m| cfa < sp.into() || cfa < i128::from(sp) + 2 && !m, ..RIGHT },
    ),
    ("CFA wraps", Ways { cfa: |base, offset| base.wrapping_add_signed(offset).into(), ..RIGHT }),
    ("CFA is compared with SP as a signed number", Ways { too_low: signed_too_low, ..RIGHT }),
    ("CFA stays at the ends of the addresses", Ways { cfa: |b, o| (RIGHT.cfa)(b, o).clamp(0, TWO_64 - 1), ..RIGHT }),
    ("CFA 2^64 - 1 is outside", Ways { is_outside: |cfa| !(0..TWO_64 - 1).contains(&cfa), ..RIGHT }),
    ("CFA 2^64 is inside", Ways { is_outside: |cfa| !(0..=TWO_64).contains(&cfa), ..RIGHT }),
    ("CFA 0 is outside", Ways { is_outside: |cfa| !(1..TWO_64).contains(&cfa), ..RIGHT }),
    // The window.
    ("a place wraps", Ways { place: |at, w, l| wholly_inside(at.rem_euclid(TWO_64) - i128::from(w), l), ..RIGHT }),
    (
        "a place in the window wraps",
        Ways { place: |at, w, l| wholly_inside((at - i128::from(w)).rem_euclid(TWO_64), l), ..RIGHT },
    ),
    (
        "a word may end one byte past the window",
        Ways { place: |at, w, l| wholly_inside(at - i128::from(w), l + 1), ..RIGHT },
    ),
    (
        "a word may not end where the window ends",
        Ways { place: |at, w, l| wholly_inside(at - i128::from(w), l.saturating_sub(1)), ..RIGHT },
    ),
    ("a word may begin one byte before the window", Ways { place: one_byte_before, ..RIGHT }),
    (
        "a word may not begin where the window begins",
        Ways { place: |at, w, l| wholly_inside(at - i128::from(w), l).filter(|&p| p > 0), ..RIGHT },
    ),
    (
        "a word that begins in the window is inside",
        Ways { place: |at, w, l| begins_inside(at - i128::from(w), l), ..RIGHT },
    ),
    (
        "a window that ends at 2^64 has wrapped",
        Ways { past_the_end: |address, l| address.checked_add(l as u64).is_none(), ..RIGHT },
    ),
    (
        "a window at the last address is past the end",
        Ways { past_the_end: |a, l| a == u64::MAX || (RIGHT.past_the_end)(a, l), ..RIGHT },
    ),
    (
        "a window may end one byte past 2^64",
        Ways { past_the_end: |a, l| i128::from(a) + l as i128 > TWO_64 + 1, ..RIGHT },
    ),
    ("no window is past the end", Ways { past_the_end: |_, _| false, ..RIGHT }),
    ("words are little-endian", Ways { is_big: |_| false, ..RIGHT }),
    ("words are in the other byte order", Ways { is_big: |big| !big, ..RIGHT }),
    ("places count from SP", Ways { counts_from: |_, sp| sp.into(), ..RIGHT }),
    // The rules' order, and the row.
    ("24 is given on AMD64", Ways { no_mask_for: |_, found, mask| found.on_aarch64.signed && mask == 0, ..RIGHT }),
    ("24 is not given", Ways { no_mask_for: |_, _, _| false, ..RIGHT }),
    ("24 is given with a mask", Ways { no_mask_for: |_, found, _| found.row.signed, ..RIGHT }),
    ("24 is given on rows that are not signed", Ways { no_mask_for: |s, _, mask| !s.amd64 && mask == 0, ..RIGHT }),
    ("24 is given on AMD64 for every mask", Ways { no_mask_for: |_, found, _| found.on_aarch64.signed, ..RIGHT }),
    ("24 comes after 25", Ways { in_step: &[25, 24, 26, 27, 28], ..RIGHT }),
    ("24 comes after 26", Ways { in_step: &[25, 26, 24, 27, 28], ..RIGHT }),
    ("24 comes after 27", Ways { in_step: &[25, 26, 27, 24, 28], ..RIGHT }),
    ("24 comes after 28", Ways { in_step: &[25, 26, 27, 28, 24], ..RIGHT }),
    ("26 comes before 25", Ways { in_step: &[24, 26, 25, 27, 28], ..RIGHT }),
    ("27 comes before 26", Ways { in_step: &[24, 25, 27, 26, 28], ..RIGHT }),
    ("27 comes before 25", Ways { in_step: &[24, 27, 25, 26, 28], ..RIGHT }),
    ("28 comes before 26", Ways { in_step: &[24, 25, 28, 26, 27], ..RIGHT }),
    ("the section comes before 41 in a step", Ways { before_step: &[1, 41, 21], ..RIGHT }),
    // The PC asked.
    ("PC itself is looked up without the mark", Ways { looked_up: |pc, _| Some(pc), ..RIGHT }),
    (
        "PC itself is looked up without the mark, but 0",
        Ways { looked_up: |pc, m| (m || pc > 0).then_some(pc), ..RIGHT },
    ),
    ("PC - 1 is looked up with the mark too", Ways { looked_up: |pc, _| pc.checked_sub(1), ..RIGHT }),
    ("PC - 1 is looked up with the mark alone", Ways { looked_up: |pc, m| (RIGHT.looked_up)(pc, !m), ..RIGHT }),
    ("PC - 1 wraps", Ways { looked_up: |pc, m| Some(pc.wrapping_sub(u64::from(!m))), ..RIGHT }),
    ("PC - 1 is 0 for PC 0", Ways { looked_up: |pc, m| Some(pc.saturating_sub(u64::from(!m))), ..RIGHT }),
    ("PC 0 is never looked up", Ways { looked_up: |pc, m| (RIGHT.looked_up)(pc, m).filter(|_| pc > 0), ..RIGHT }),
    (
        "PC 1 is not looked up without the mark",
        Ways { looked_up: |pc, m| (m || pc > 1).then(|| pc - u64::from(!m)), ..RIGHT },
    ),
    (
        "PC - 4 is looked up without the mark",
        Ways { looked_up: |pc, m| if m { Some(pc) } else { pc.checked_sub(4) }, ..RIGHT },
    ),
    ("the offset in the function is that of PC", Ways { offset_from: |pc, _| pc, ..RIGHT }),
    ("PC 0 without the mark comes before the section", Ways { before_step: &[41, 21, 1], ..RIGHT }),
    ("PC 0 without the mark comes before 41", Ways { before_step: &[21, 41, 1], ..RIGHT }),
    ("RA - 1 is handed back", Ways { handed_back: |_, c| Registers { pc: c.pc.wrapping_sub(1), ..c }, ..RIGHT }),
    ("RA - 1 is written", Ways { frame: |c| vec![c.sp, c.pc.wrapping_sub(1), c.fp], ..RIGHT }),
    (
        "RA 1 ends a trace",
        Ways { ending: |c, full| (RIGHT.ending)(&Registers { pc: c.pc.saturating_sub(1), ..*c }, full), ..RIGHT },
    ),
    // The signature.
    ("RA is cleared in rows that are not signed", Ways { cleared: |read| read.cleared_if(!read.scene.amd64), ..RIGHT }),
    ("RA is cleared on AMD64", Ways { cleared: |read| read.cleared_if(read.found.on_aarch64.signed), ..RIGHT }),
    ("RA is cleared in every row of every machine", Ways { cleared: |read| read.cleared_if(true), ..RIGHT }),
    (
        "RA is not cleared where it was in LR",
        Ways { cleared: |read| read.cleared_if(read.found.row.signed && !read.in_lr()), ..RIGHT },
    ),
    (
        "RA is not cleared where it was on the stack",
        Ways { cleared: |read| read.cleared_if(read.found.row.signed && read.in_lr()), ..RIGHT },
    ),
    ("RA is never cleared", Ways { cleared: |read| read.caller, ..RIGHT }),
    ("RA keeps the mask's bits alone", Ways { cleared: |read| read.if_signed(|ra, mask| ra & mask), ..RIGHT }),
    ("the mask's bits are set", Ways { cleared: |read| read.if_signed(|ra, mask| ra | mask), ..RIGHT }),
    ("the mask's bits are flipped", Ways { cleared: |read| read.if_signed(|ra, mask| ra ^ mask), ..RIGHT }),
    ("all bits from the mask's lowest on are cleared", Ways { cleared: |read| read.if_signed(from_lowest), ..RIGHT }),
    (
        "the top byte is cleared whatever the mask",
        Ways { cleared: |read| read.if_signed(|ra, mask| clear(ra, mask | 0xff << 56)), ..RIGHT },
    ),
    (
        "the lower half of the mask is cleared alone",
        Ways { cleared: |read| read.if_signed(|ra, mask| clear(ra, mask & 0xffff_ffff)), ..RIGHT },
    ),
    (
        "the upper half of the mask is cleared alone",
        Ways { cleared: |read| read.if_signed(|ra, mask| clear(ra, mask >> 32 << 32)), ..RIGHT },
    ),
    ("the mask has 32 bits", Ways { mask: |mask, _| mask & 0xffff_ffff, ..RIGHT }),
    ("the mask is 0 in later frames", Ways { mask: |mask, m| if m { mask } else { 0 }, ..RIGHT }),
    ("the mask is 0 in the first frame", Ways { mask: |mask, m| if m { 0 } else { mask }, ..RIGHT }),
    (
        "RA is cleared in the first frame alone",
        Ways { mask: |mask, m| if m { mask } else { 0 }, no_mask_for: by_what_is_lent, ..RIGHT },
    ),
    (
        "RA is cleared in later frames alone",
        Ways { mask: |mask, m| if m { 0 } else { mask }, no_mask_for: by_what_is_lent, ..RIGHT },
    ),
    ("the PC handed in is cleared", Ways { pc: clear, ..RIGHT }),
    (
        "FP is cleared as RA is",
        Ways { cleared: |read| Registers { fp: read.like_ra(read.caller.fp), ..(RIGHT.cleared)(read) }, ..RIGHT },
    ),
    (
        "LR is cleared as RA is",
        Ways { cleared: |read| Registers { lr: read.like_ra(read.caller.lr), ..(RIGHT.cleared)(read) }, ..RIGHT },
    ),
    (
        "CFA is cleared as RA is",
        Ways { cleared: |read| Registers { sp: read.like_ra(read.caller.sp), ..(RIGHT.cleared)(read) }, ..RIGHT },
    ),
    (
        "RA is held against 0 as read",
        Ways { ra_for: |to, read, ra| if to == Use::Ending { read } else { ra }, ..RIGHT },
    ),
    ("RA is written as read", Ways { ra_for: |to, read, ra| if to == Use::Frame { read } else { ra }, ..RIGHT }),
    ("a step hands RA back as read", Ways { ra_for: |to, read, ra| if to == Use::Step { read } else { ra }, ..RIGHT }),
    (
        "RA as read, minus 1, is looked up",
        Ways { ra_for: |to, read, ra| if to == Use::Next { read } else { ra }, ..RIGHT },
    ),
    // FP.
    ("FP is never read", Ways { fp: |_, _| Place::Register, ..RIGHT }),
    ("FP is at the third offset on AMD64", Ways { fp: |_, found| found.on_aarch64.fp, ..RIGHT }),
    ("FP is at the second of two offsets on AArch64", Ways { fp: second_of_two, ..RIGHT }),
    (
        "an FP that is not saved is 0",
        Ways { handed_back: |old, c| Registers { fp: if c.fp == old.fp { 0 } else { c.fp }, ..c }, ..RIGHT },
    ),
    // What is handed back.
    ("LR becomes RA", Ways { handed_back: |_, c| Registers { lr: c.pc, ..c }, ..RIGHT }),
    ("LR becomes 0", Ways { handed_back: |_, c| Registers { lr: 0, ..c }, ..RIGHT }),
    ("the mark is kept", Ways { handed_back: |old, c| Registers { first: old.first, ..c }, ..RIGHT }),
    ("SP is kept", Ways { handed_back: |old, c| Registers { sp: old.sp, ..c }, ..RIGHT }),
    ("only 1 is the mark", Ways { has_mark: |first| first == 1, ..RIGHT }),
    ("the mark is its lowest bit", Ways { has_mark: |first| first & 1 != 0, ..RIGHT }),
    ("the mark has 32 bits", Ways { has_mark: |first| first as u32 != 0, ..RIGHT }),
    ("a refusal hands the new SP back", Ways { old: |old, cfa| Registers { sp: cfa as u64, ..old }, ..RIGHT }),
    ("a refusal hands a mark of 1 back", Ways { old: |old, _| Registers { first: old.first.min(1), ..old }, ..RIGHT }),
    ("a refusal hands no mark back", Ways { old: |old, _| Registers { first: 0, ..old }, ..RIGHT }),
    ("a refused section's index is not told", Ways { index: |_| 0, ..RIGHT }),
    // Before a trace.
    ("43 counts the limit as given", Ways { words_asked: |limit| limit.wrapping_mul(3), ..RIGHT }),
    (
        "43 asks 192 words of limit 0",
        Ways { words_asked: |limit| if limit == 0 { 192 } else { (RIGHT.words_asked)(limit) }, ..RIGHT },
    ),
    (
        "43 asks 768 words of limit 0",
        Ways { words_asked: |limit| if limit == 0 { 768 } else { (RIGHT.words_asked)(limit) }, ..RIGHT },
    ),
    ("43 asks 384 words of every limit", Ways { words_asked: |_| 384, ..RIGHT }),
    ("43 asks a word a frame", Ways { words_asked: |limit| (RIGHT.words_asked)(limit) / 3, ..RIGHT }),
    ("43 asks a word fewer", Ways { words_asked: |limit| (RIGHT.words_asked)(limit) - 1, ..RIGHT }),
    ("limit 256 is refused", Ways { too_high: |limit| limit > 255, ..RIGHT }),
    ("limit 257 is not refused", Ways { too_high: |limit| limit > 257, ..RIGHT }),
    ("a limit has 32 bits", Ways { too_high: |limit| limit as u32 > 256, ..RIGHT }),
    ("42 comes after 43", Ways { before_trace: &[41, 43, 42, 1], ..RIGHT }),
    ("41 comes after 42 and 43", Ways { before_trace: &[42, 43, 41, 1], ..RIGHT }),
    ("the section comes before 43", Ways { before_trace: &[41, 42, 1, 43], ..RIGHT }),
    ("the section comes before 41, 42 and 43", Ways { before_trace: &[1, 41, 42, 43], ..RIGHT }),
    // A trace.
    ("limit 0 means 256", Ways { in_force: |limit| if limit == 0 { 256 } else { limit }, ..RIGHT }),
    (
        "limit 0 means 256, for 43 too",
        Ways {
            in_force: |limit| if limit == 0 { 256 } else { limit },
            words_asked: |limit| if limit == 0 { 768 } else { (RIGHT.words_asked)(limit) },
            ..RIGHT
        },
    ),
    ("limit 0 means 64 still", Ways { in_force: |limit| if limit == 0 { 64 } else { limit }, ..RIGHT }),
    (
        "limit 0 means 64 still, for 43 too",
        Ways {
            in_force: |limit| if limit == 0 { 64 } else { limit },
            words_asked: |limit| if limit == 0 { 192 } else { (RIGHT.words_asked)(limit) },
            ..RIGHT
        },
    ),
    ("limit 0 means 127", Ways { in_force: |limit| if limit == 0 { 127 } else { limit }, ..RIGHT }),
    ("128 is in force for every limit", Ways { in_force: |_| 128, ..RIGHT }),
    ("128 is the highest limit in force", Ways { in_force: |limit| (RIGHT.in_force)(limit).min(128), ..RIGHT }),
    ("limit 64 means 128", Ways { in_force: |limit| (RIGHT.in_force)(if limit == 64 { 0 } else { limit }), ..RIGHT }),
    ("a trace starts with the mark handed in", Ways { first_mark: |first| first, ..RIGHT }),
    ("a trace starts without the mark", Ways { first_mark: |_| 0, ..RIGHT }),
    ("the first frame is repeated", Ways { starts_at: |first, _| first, ..RIGHT }),
    ("every frame of a trace has the mark", Ways { starts_at: |_, last| Registers { first: 1, ..last }, ..RIGHT }),
    (
        "31 comes before 30",
        Ways { ending: |c, full| full.then_some(Ending::Full).or((RIGHT.ending)(c, full)), ..RIGHT },
    ),
    ("RA 0 does not end a trace", Ways { ending: |_, full| full.then_some(Ending::Full), ..RIGHT }),
    (
        "FP 0 ends a trace",
        Ways { ending: |c, full| (RIGHT.ending)(&Registers { pc: c.pc & c.fp, ..*c }, full), ..RIGHT },
    ),
    ("a full limit ends a trace one frame late", Ways { in_force: |limit| (RIGHT.in_force)(limit) + 1, ..RIGHT }),
    (
        "a full limit ends a trace one frame early",
        Ways { in_force: |limit| (RIGHT.in_force)(limit).max(2) - 1, ..RIGHT },
    ),
    ("a frame has no FP", Ways { frame: |c| vec![c.sp, c.pc], ..RIGHT }),
    ("FP comes before RA in a frame", Ways { frame: |c| vec![c.sp, c.fp, c.pc], ..RIGHT }),
    ("RA comes before CFA in a frame", Ways { frame: |c| vec![c.pc, c.sp, c.fp], ..RIGHT }),
    ("a frame holds LR", Ways { frame: |c| vec![c.sp, c.pc, c.lr], ..RIGHT }),
    (
        "a 0 is written behind the frames",
        Ways { left: |behind| behind.iter_mut().take(1).for_each(|word| *word = 0), ..RIGHT },
    ),
    ("the words behind the frames are cleared", Ways { left: |behind| behind.fill(0), ..RIGHT }),
    (
        "the last word is written",
        Ways { left: |behind| behind.iter_mut().rev().take(1).for_each(|word| *word = 0), ..RIGHT },
    ),
];

// 24 as it should be, whatever mask is cleared by.
fn by_what_is_lent(scene: &Scene, found: &Found, _: u64) -> bool {
    (RIGHT.no_mask_for)(scene, found, scene.walk.process.mask)
}

fn from_lowest(ra: u64, mask: u64) -> u64 {
    clear(ra, u64::MAX << mask.trailing_zeros())
}

fn in_lr_if_first(scene: &Scene, found: &Found, marked: bool) -> Place {
    if marked && !scene.amd64 {
        Place::Register
    } else {
        found.row.ra
    }
}

// LR is what the answer has, but the word below CFA must be there.
fn below_cfa(place: Place) -> Place {
    match place {
        Place::Register => Place::AtOffset(-8),
        saved => saved,
    }
}

fn signed_too_low(cfa: i128, sp: u64, marked: bool) -> bool {
    let (cfa, sp) = (cfa as u64 as i64, sp as i64);
    cfa < sp || cfa == sp && !marked
}

fn one_byte_before(at: i128, window: u64, length: usize) -> Option<i128> {
    let place = at - i128::from(window);
    if place == -1 {
        Some(-1)
    } else {
        wholly_inside(place, length)
    }
}

fn begins_inside(place: i128, length: usize) -> Option<i128> {
    (0 <= place && place < length as i128).then_some(place)
}

fn second_of_two(scene: &Scene, found: &Found) -> Place {
    if scene.amd64 || found.row.fp != Place::Register {
        found.row.fp
    } else {
        found.row.ra
    }
}

impl Ways {
    fn walked(&self, scene: &Scene) -> Walked {
        let mut words = lent(scene.walk.words);
        let step = self.step(scene);
        let traced = self.trace(scene, &mut words);
        Walked { step, traced, words }
    }

    fn step(&self, scene: &Scene) -> Step {
        let old = scene.walk.registers;
        for rule in self.before_step {
            match (rule, scene.meaning.verdict) {
                (41, _) if self.is_past_the_end(scene) => return Step::Refused { old: (self.old)(old, 0), number: 41 },
                (1, Verdict::Refused { number, index }) => {
                    return Step::Unsound { old: (self.old)(old, 0), number, index: (self.index)(index) }
                }
                (21, _) if self.asked(scene, &old).is_none() => {
                    return Step::Refused { old: (self.old)(old, 0), number: 21 }
                }
                _ => {}
            }
        }
        match self.caller(scene, old) {
            Ok(came) => Step::Caller(self.with_ra_for(Use::Step, &came)),
            Err((number, cfa)) => Step::Refused { old: (self.old)(old, cfa), number },
        }
    }

    fn is_past_the_end(&self, scene: &Scene) -> bool {
        (self.past_the_end)(scene.walk.process.stack, scene.walk.stack.len())
    }

    fn asked(&self, scene: &Scene, registers: &Registers) -> Option<u64> {
        let pc = (self.pc)(registers.pc, scene.walk.process.mask);
        (self.looked_up)(pc, (self.has_mark)(registers.first))
    }

    fn with_ra_for(&self, to: Use, came: &Came) -> Registers {
        Registers { pc: (self.ra_for)(to, came.read, came.caller.pc), ..came.caller }
    }

    // The caller, or a refusal's number and CFA as far as it was worked out.
    fn caller(&self, scene: &Scene, old: Registers) -> Result<Came, (u64, i128)> {
        let marked = (self.has_mark)(old.first);
        let looked_up = self.asked(scene, &old).ok_or((21, 0))?;
        let offset_from = (self.offset_from)(old.pc, looked_up);
        let found = scene.find(looked_up, offset_from).map_err(|number| (number, 0))?;
        let base = if found.row.base == Base::Sp { old.sp } else { old.fp };
        let cfa = (self.cfa)(base, found.row.cfa_offset);
        let (ra_place, mask) = ((self.ra)(scene, &found, marked), (self.mask)(scene.walk.process.mask, marked));
        let saved = |place, register| self.saved(scene, place, (self.counts_from)(cfa, old.sp), register);
        let (ra, fp) = (saved(ra_place, old.lr), saved((self.fp)(scene, &found), old.fp));
        let broken = |rule: &&u64| match rule {
            24 => (self.no_mask_for)(scene, &found, mask),
            25 => (self.is_outside)(cfa),
            26 => (self.too_low)(cfa, old.sp, marked),
            27 => found.row.ra == Place::Register && !(self.trusts_lr)(marked),
            _ => saved((self.asked)(ra_place), old.lr).is_none() || ra.is_none() || fp.is_none(),
        };
        match (self.in_step.iter().find(broken), ra, fp) {
            (None, Some(read), Some(fp)) => {
                let caller = Registers { pc: read, sp: cfa as u64, fp, lr: old.lr, first: 0 };
                let cleared = (self.cleared)(&AsRead { scene, found: &found, ra_place, mask, caller });
                Ok(Came { caller: (self.handed_back)(&old, cleared), read })
            }
            (number, _, _) => Err((number.copied().unwrap_or(28), cfa)),
        }
    }

    fn saved(&self, scene: &Scene, place: Place, counts_from: i128, register: u64) -> Option<u64> {
        let Place::AtOffset(offset) = place else { return Some(register) };
        let (window, stack) = (scene.walk.process.stack, &scene.walk.stack);
        let place = (self.place)(counts_from + i128::from(offset), window, stack.len())?;
        // What is not in the window is read as 0.
        let byte = |number: i128| usize::try_from(place + number).ok().and_then(|at| stack.get(at)).unwrap_or(&0);
        let bytes = [0, 1, 2, 3, 4, 5, 6, 7].map(|number| *byte(number));
        Some(if (self.is_big)(scene.meaning.big) { u64::from_be_bytes(bytes) } else { u64::from_le_bytes(bytes) })
    }

    fn trace(&self, scene: &Scene, words: &mut [u64]) -> Traced {
        let limit = scene.walk.limit;
        let nothing = |ending| Traced { frames: 0, ending };
        for rule in self.before_trace {
            match (rule, scene.meaning.verdict) {
                (41, _) if self.is_past_the_end(scene) => return nothing(Ending::Refused(41)),
                (42, _) if (self.too_high)(limit) => return nothing(Ending::Refused(42)),
                (43, _) if (words.len() as u64) < (self.words_asked)(limit) => return nothing(Ending::Refused(43)),
                (1, Verdict::Refused { number, index }) => {
                    return nothing(Ending::Unsound { number, index: (self.index)(index) })
                }
                _ => {}
            }
        }
        let traced = self.frames(scene, words);
        let behind = words.len().min((self.frame)(&Registers::default()).len() * traced.frames as usize);
        (self.left)(&mut words[behind..]);
        traced
    }

    // Frames that the buffer has no room for are left out of it; a walk that would not end ends here.
    fn frames(&self, scene: &Scene, words: &mut [u64]) -> Traced {
        let registers = scene.walk.registers;
        let first = Registers { first: (self.first_mark)(registers.first), ..registers };
        let limit = (self.in_force)(scene.walk.limit).min(300);
        let (mut last, mut frames) = (first, 0);
        loop {
            let came = match self.caller(scene, (self.starts_at)(first, last)) {
                Ok(came) => came,
                Err((number, _)) => return Traced { frames, ending: Ending::Refused(number) },
            };
            let frame = (self.frame)(&self.with_ra_for(Use::Frame, &came));
            words.iter_mut().skip(frame.len() * frames as usize).zip(&frame).for_each(|(word, new)| *word = *new);
            frames += 1;
            if let Some(ending) = (self.ending)(&self.with_ra_for(Use::Ending, &came), frames == limit) {
                return Traced { frames, ending };
            }
            last = self.with_ra_for(Use::Next, &came);
        }
    }
}

impl Scene<'_> {
    fn find(&self, pc: u64, offset_from: u64) -> Result<Found, u64> {
        let find = |meaning| row_for(meaning, self.walk.process.section, pc, offset_from);
        let row = find(self.meaning)?;
        let on_aarch64 = self.as_aarch64.map_or(Ok(row), find)?;
        Ok(Found { row, on_aarch64 })
    }
}

// The row in the function that covers one PC for the place of another.
fn row_for(meaning: &Meaning, address: u64, pc: u64, offset_from: u64) -> Result<Row, u64> {
    let answer =
        |functions: &[Function], address: u64, pc: u64| obvious::answer(meaning.sorted, functions, address, pc);
    let covering = answer(&meaning.functions, address, pc);
    let function = match covering.outcome {
        Outcome::Found { row, .. } if pc == offset_from => return Ok(row),
        Outcome::Found { function, .. } | Outcome::NoRow { function } => function as usize,
        _ => return Err(covering.refusal()),
    };
    // The function by itself, as long as any can be.
    let alone = Function { size: u32::MAX, ..meaning.functions[function].clone() };
    let answer = answer(&[alone], address, offset_from);
    match answer.outcome {
        Outcome::Found { row, .. } => Ok(row),
        _ => Err(answer.refusal()),
    }
}

// An AMD64 section's bytes with the other ABI and its fixed RA offset; its rows have counts that both allow.
fn as_aarch64(section: &[u8], meaning: &Meaning) -> Option<Meaning> {
    if meaning.verdict != Verdict::Accepted || section[4] != 3 {
        return None;
    }
    let mut other = section.to_vec();
    (other[4], other[6]) = (2, 0);
    Some(Meaning { functions: functions(&other), ..meaning.clone() })
}

/// How each crash in vectors/last_calls ended by the rule of document 01, PC itself in every frame: the neighbour of the
/// function that ends in a call has no frame of its own, so that the walk finds 0 on AMD64, and CFA at SP on AArch64.
const BY_PC_ITSELF: [(&str, [(u64, u64); 2]); 2] =
    [("ok_last_calls_amd64", [(2, 30), (2, 30)]), ("ok_last_calls_aarch64", [(1, 26), (1, 26)])];

#[test]
fn last_calls_were_blamed_on_the_neighbour() {
    let itself = Ways { looked_up: |pc, _| Some(pc), ..RIGHT };
    let cases = cases::all();
    for (name, expected) in BY_PC_ITSELF {
        let case = cases.iter().find(|case| case.name == name).expect("a stored case");
        let meaning = Meaning::read(&case.section);
        let ended = |ways: &Ways| -> Vec<(u64, u64)> {
            let walks =
                case.walks.iter().map(|(walk, _)| Scene { walk, meaning: &meaning, amd64: false, as_aarch64: None });
            let traced = walks.map(|scene| ways.walked(&scene).traced);
            traced.map(|traced| (traced.frames, traced.ending.number())).collect()
        };
        assert_eq!((ended(&itself), ended(&RIGHT)), (expected.to_vec(), vec![(3, 21); 2]), "{name}");
    }
}

#[test]
fn every_slip_is_noticed() {
    let (mut noticed, mut walks) = (vec![0; SLIPS.len()], 0);
    for case in cases::all().iter().filter(|case| !case.walks.is_empty()) {
        let meaning = Meaning::read(&case.section);
        let other = as_aarch64(&case.section, &meaning);
        let amd64 = case.section.get(4) == Some(&3);
        for (walk, right) in &case.walks {
            let scene = Scene { walk, meaning: &meaning, amd64, as_aarch64: other.as_ref() };
            assert_eq!(RIGHT.walked(&scene), *right, "{}: the right ways, {walk:x?}", case.name);
            for ((_, slip), times) in SLIPS.iter().zip(&mut noticed) {
                *times += u32::from(slip.walked(&scene) != *right);
            }
            walks += 1;
        }
    }
    println!("{} slips in {walks} walks", SLIPS.len());
    for ((name, _), times) in SLIPS.iter().zip(&noticed) {
        println!("{times:>5} walks notice that {name}");
    }
    for ((name, _), times) in SLIPS.iter().zip(&noticed) {
        assert!(*times > 0, "no walk notices that {name}");
    }
}
