//! An endless source of sections, sound and damaged, the same for the same seed, and of what is asked of them:
//! functions by their indexes, rows, lookups and walks; and of smaller ones, which are asked single addresses, or of
//! which answers are explained.
//!
//! A section begins as a random sound description. Most are then damaged: a field of the description, bytes of what
//! was built from it, or its length. Damage likes the edges: one below, exactly at, one above.
#![forbid(unsafe_code)]

mod asked;
mod indexes;
mod lookups;
mod places;
mod turns;
mod walks;
mod whys;

pub use asked::{to_ask, ToAsk, ASKED_OF_A_TURN};
pub use indexes::indexes;
pub use lookups::questions;
pub use places::places;
pub use turns::{turn, Turn};
pub use walks::{walkable, walks};
pub use whys::record;

use crate::maker::{FirstRow, Function, Machine, Row, Section, Start, RELATIVE, SORTED};

/// Numbers by splitmix64.
pub struct Random(u64);

impl Random {
    pub fn new(seed: u64) -> Random {
        Random(seed)
    }

    pub fn number(&mut self) -> u64 {
        self.0 = self.0.wrapping_add(0x9e37_79b9_7f4a_7c15);
        let mut mixed = self.0;
        mixed = (mixed ^ mixed >> 30).wrapping_mul(0xbf58_476d_1ce4_e5b9);
        mixed = (mixed ^ mixed >> 27).wrapping_mul(0x94d0_49bb_1331_11eb);
        mixed ^ mixed >> 31
    }

    /// A number below a limit that is above 0.
    pub fn below(&mut self, limit: u64) -> u64 {
        self.number() % limit
    }

    fn index(&mut self, length: usize) -> usize {
        self.below(length as u64) as usize
    }

    /// True once in so many times.
    fn once_in(&mut self, times: u64) -> bool {
        self.below(times) == 0
    }

    fn pick<T: Copy>(&mut self, from: &[T]) -> T {
        from[self.index(from.len())]
    }

    fn bytes(&mut self, count: usize) -> Vec<u8> {
        (0..count).map(|_| self.number() as u8).collect()
    }
}

/// The bytes of a section, sound one time in three.
pub fn section(random: &mut Random) -> Vec<u8> {
    let section = sound(random);
    match random.below(12) {
        0..=3 => section.bytes(),
        kind => damaged(random, section, kind - 4),
    }
}

// By a kind below 8: a field of the description, a few of them, bytes, or the length.
fn damaged(random: &mut Random, mut section: Section, kind: u64) -> Vec<u8> {
    match kind {
        0..=4 => {
            random.pick(&DAMAGES)(random, &mut section);
            section.bytes()
        }
        5 => {
            for _ in 0..2 + random.below(2) {
                random.pick(&DAMAGES)(random, &mut section);
            }
            section.bytes()
        }
        6 => with_other_bytes(random, section.bytes()),
        _ => with_another_length(random, section.bytes()),
    }
}

/// A random sound description.
pub fn sound(random: &mut Random) -> Section {
    let machine = random.pick(&Machine::ALL);
    let flags = random.below(8) as u8;
    sound_of(random, machine, flags)
}

// The same of a machine and with these flags.
fn sound_of(random: &mut Random, machine: Machine, flags: u8) -> Section {
    let mut section = Section::new(machine);
    section.flags = flags;
    if random.once_in(4) {
        let length = random.pick(&[1, 4, 255]);
        section.auxiliary = random.bytes(length);
    }
    let count = if random.once_in(20) { random.below(40) } else { random.below(6) };
    section.functions = (0..count).map(|_| sound_function(random, machine)).collect();
    place_functions(random, &mut section);
    share_rows(random, &mut section);
    if random.once_in(4) {
        let length = random.index(9);
        section.tail = random.bytes(length);
    }
    section
}

fn sound_function(random: &mut Random, machine: Machine) -> Function {
    let row_type = random.below(3) as u8;
    let mut function = Function::new(0, 0, row_type, sound_rows(random, machine, row_type));
    function.repeated = random.once_in(4);
    function.key_b = random.once_in(4);
    function.repeat = if function.repeated { 1 + random.below(255) as u8 } else { random.pick(&[0, 0, 1, 16, 255]) };
    function.padding = random.pick(&[0, 0, 1, 0xff00, 0xffff]);
    if random.once_in(8) {
        let length = 1 + random.index(5);
        function.gap = random.bytes(length);
    }
    function
}

// Steps that keep five rows below the highest start of their width.
fn sound_rows(random: &mut Random, machine: Machine, row_type: u8) -> Vec<Row> {
    let step = [50, 0x3000, 0x3000_0000][usize::from(row_type)];
    let mut start = random.pick(&[0, 0, 0, 3]);
    let mut rows: Vec<Row> = Vec::new();
    for _ in 0..random.below(6) {
        let row = match rows.last() {
            Some(before) if random.once_in(2) => row_like(random, before, start),
            _ => sound_row(random, machine, start),
        };
        rows.push(row);
        start += if random.once_in(2) { 1 } else { 1 + random.below(step) as u32 };
    }
    rows
}

fn sound_row(random: &mut Random, machine: Machine, start: u32) -> Row {
    let size_code = random.below(3) as u8;
    let count = 1 + random.below(machine.most_offsets().into()) as u8;
    let mut row = Row::new(start, size_code, &offsets(random, size_code, count));
    row.sp_base = random.once_in(2);
    row.signed = random.once_in(3);
    row
}

// Written as the row before it, with offsets of its own.
fn row_like(random: &mut Random, before: &Row, start: u32) -> Row {
    Row { start, offsets: offsets(random, before.size_code, before.count), ..before.clone() }
}

fn offsets(random: &mut Random, size_code: u8, count: u8) -> Vec<i32> {
    let shift = 32 - (8 << size_code);
    (0..count).map(|_| random.number() as i32 >> shift).collect()
}

// Sizes and effective starts; in order, and often adjoining, where the section is sorted, and else often overlapping.
fn place_functions(random: &mut Random, section: &mut Section) {
    let sorted = section.flags & SORTED != 0;
    let mut before = random.below(0x8000_0000) as i64 - 0x4000_0000;
    let mut end = before;
    let count = section.functions.len();
    for (index, function) in section.functions.iter_mut().enumerate() {
        let size = random.pick(&[0, 1, 16, 0x100, 0xffff]);
        let widest = !sorted || index + 1 == count;
        function.size = if widest && random.once_in(8) { u32::MAX - random.below(3) as u32 } else { size };
        let start = if sorted { end + random.pick(&[0, 0, 1, 1000]) } else { unsorted_start(random, before, end) };
        function.start = Start::Effective(start);
        (before, end) = (start, start + i64::from(function.size));
    }
    // The outermost fields, which only the first and the last of a sorted section can have.
    if count > 0 && random.once_in(10) {
        (section.functions[0].start, section.functions[0].size) = (Start::Field(i32::MIN), 16);
    }
    if count > 1 && random.once_in(10) {
        section.functions[count - 1].start = Start::Field(i32::MAX);
    }
}

// Anywhere, where the function before ends, or so close to its start that most overlap.
fn unsorted_start(random: &mut Random, before: i64, end: i64) -> i64 {
    match random.below(4) {
        0 => random.number() as i32 as i64 / 2,
        1 if end < 0x7000_0000 => end,
        _ => before + random.pick(&[-16, -1, 0, 1, 8, 20]),
    }
}

fn share_rows(random: &mut Random, section: &mut Section) {
    let count = section.functions.len();
    if count > 1 && random.once_in(5) {
        let (from, to) = (random.index(count - 1), count - 1);
        let row_type = section.functions[from].row_type;
        let sharing = &mut section.functions[to];
        (sharing.first_row, sharing.row_type) = (FirstRow::SharedWith(from), row_type);
        sharing.rows.clear();
    }
}

type Damage = fn(&mut Random, &mut Section);

const DAMAGES: [Damage; 19] = [
    |r, s| s.magic = r.pick(&[[0xe2, 0xe2], [0xde, 0xde], [0xe2, 0xdf], [0, 0], [0xff, 0xff]]),
    |r, s| s.version = r.pick(&[0, 1, 3, 0x82, 255]),
    |r, s| s.flags |= 8 << r.below(5),
    |r, s| s.abi = r.below(6) as u8,
    |r, s| s.magic = if r.once_in(2) { [0xe2, 0xde] } else { [0xde, 0xe2] },
    |r, s| s.fixed_fp = r.pick(&[1, -1, -8, 127, -128]),
    |r, s| s.fixed_ra = r.pick(&[0, -8, 8, -7, -9]),
    |r, s| s.claims.table_offset = Some(1 << r.below(32)),
    |r, s| s.claims.area_offset = Some(near(r, 20 * s.functions.len() as u64)),
    |r, s| s.claims.functions = Some(near(r, s.functions.len() as u64).wrapping_add(r.pick(&[0, 1 << 30, 1 << 31]))),
    |r, s| s.claims.auxiliary = Some(r.number() as u8),
    |r, s| s.claims.rows = Some(near(r, s.functions.iter().map(|f| f.rows.len() as u64).sum())),
    |r, s| on_a_function(r, s, |r, f| f.high_bits = 1 + r.below(3) as u8),
    |r, s| on_a_function(r, s, |r, f| f.row_type = 3 + r.below(13) as u8),
    |r, s| on_a_function(r, s, |r, f| (f.repeated, f.repeat) = (true, r.below(2) as u8)),
    |r, s| on_a_function(r, s, misplace_rows),
    |r, s| on_a_function(r, s, damage_row),
    lower_a_start,
    end_the_area_early,
];

// At a number or close to it.
fn near(random: &mut Random, number: u64) -> u32 {
    (number as u32).wrapping_add(random.pick(&[0, 1, 2, u32::MAX, u32::MAX - 1]))
}

fn on_a_function(random: &mut Random, section: &mut Section, damage: fn(&mut Random, &mut Function)) {
    if !section.functions.is_empty() {
        let index = random.index(section.functions.len());
        damage(random, &mut section.functions[index]);
    }
}

fn misplace_rows(random: &mut Random, function: &mut Function) {
    match random.below(4) {
        0 => function.first_row = FirstRow::PastEnd(random.below(3) as u32),
        1 => function.first_row = FirstRow::At(random.pick(&[0, 1, 3, 1 << 31, u32::MAX])),
        2 => function.claimed_rows = Some(near(random, function.rows.len() as u64)),
        _ => (function.first_row, function.claimed_rows) = (FirstRow::PastEnd(random.below(2) as u32), Some(0)),
    }
}

fn damage_row(random: &mut Random, function: &mut Function) {
    if function.rows.is_empty() {
        return;
    }
    let index = random.index(function.rows.len());
    let before = function.rows[index.saturating_sub(1)].start;
    let row = &mut function.rows[index];
    match random.below(4) {
        0 => row.size_code = 3,
        1 => row.count = random.below(16) as u8,
        // One above is sound.
        2 => row.start = (before + 1).saturating_sub(random.below(3) as u32),
        _ => row.start = random.pick(&[0, 0x7f, 0x80, 0xff, 0x8000, 0xffff, 0x8000_0000, u32::MAX]),
    }
}

fn lower_a_start(random: &mut Random, section: &mut Section) {
    if section.functions.len() < 2 {
        return;
    }
    section.flags |= SORTED;
    let index = 1 + random.index(section.functions.len() - 1);
    let end = section.effective_start(index - 1) + i64::from(section.functions[index - 1].size);
    let start = end - random.pick(&[0, 1, 1, 20, 21, 1000]);
    let base = if section.flags & RELATIVE != 0 { section.field_position(index) } else { 0 };
    // An end past every field leaves the start as it is.
    if let Ok(field) = i32::try_from(start - base) {
        section.functions[index].start = Start::Field(field);
    }
}

fn end_the_area_early(random: &mut Random, section: &mut Section) {
    let with_rows: Vec<usize> =
        (0..section.functions.len()).filter(|&i| !section.functions[i].rows.is_empty()).collect();
    if with_rows.is_empty() {
        return;
    }
    let function = random.pick(&with_rows);
    let row = random.index(section.functions[function].rows.len());
    let length = section.functions[function].rows[row].length(section.functions[function].start_width());
    let kept = random.index(length + 1);
    section.end_inside_row(function, row, kept);
}

fn with_other_bytes(random: &mut Random, mut section: Vec<u8>) -> Vec<u8> {
    for _ in 0..1 + random.below(4) {
        let at = random.index(section.len());
        section[at] = match random.below(3) {
            0 => section[at] ^ 1 << random.below(8),
            1 => section[at].wrapping_add(random.pick(&[1, 255])),
            _ => random.number() as u8,
        };
    }
    section
}

fn with_another_length(random: &mut Random, mut section: Vec<u8>) -> Vec<u8> {
    match random.below(4) {
        0 => section.truncate(random.index(29)),
        1 => section.truncate(random.index(section.len() + 1)),
        2 => {
            let length = 1 + random.index(40);
            section.extend(random.bytes(length));
        }
        // Nothing but noise, or noise behind a sound header's first bytes.
        _ => {
            let length = random.index(200);
            let noise = random.bytes(length);
            let kept = random.pick(&[0, 2, 8]).min(noise.len());
            section.truncate(kept);
            section.extend(&noise[kept..]);
        }
    }
    section
}

#[cfg(test)]
mod tests {
    use super::*;
    use crate::obvious::{self, described, Meaning};
    use crate::reader::{self, Process, Verdict};
    use crate::walk::Walk;
    use std::collections::BTreeMap;

    fn sections(seed: u64, count: usize) -> impl Iterator<Item = Vec<u8>> {
        let mut random = Random::new(seed);
        (0..count).map(move |_| section(&mut random))
    }

    #[test]
    fn sound_sections_are_accepted_and_mean_what_was_described() {
        let mut random = Random::new(1);
        for turn in 0..5_000 {
            let description = sound(&mut random);
            let section = description.bytes();
            assert_eq!(reader::check(&section), Verdict::Accepted, "turn {turn}: {description:?}");
            assert_eq!(reader::functions(&section), described(&description), "turn {turn}");
        }
    }

    #[test]
    fn every_number_comes_often() {
        let mut counts: BTreeMap<u64, u32> = BTreeMap::new();
        for section in sections(2, 20_000) {
            *counts.entry(reader::check(&section).number()).or_default() += 1;
        }
        let numbers: Vec<u64> = counts.keys().copied().collect();
        assert_eq!(numbers, [&[0, 1][..], &Vec::from_iter(3..=15)].concat());
        assert!(counts.values().all(|&count| count >= 50), "{counts:?}");
    }

    #[test]
    fn lookups_are_by_the_definition_and_every_answer_comes_often() {
        let mut counts: BTreeMap<u64, u32> = BTreeMap::new();
        let mut random = Random::new(5);
        for (turn, section) in sections(2, 20_000).enumerate() {
            for (address, pc) in questions(&mut random, &section) {
                let answer = reader::lookup(&section, address, pc);
                assert_eq!(answer, obvious::lookup(&section, address, pc), "section {turn}, {address:x}, PC {pc:x}");
                *counts.entry(answer.refusal()).or_default() += 1;
            }
        }
        println!("how often each number is answered (0: found): {counts:?}");
        for number in [0, 21, 22, 23] {
            assert!(counts.get(&number).is_some_and(|&count| count >= 1_000), "{number}: {counts:?}");
        }
    }

    #[test]
    fn walks_are_by_the_definition_and_every_ending_comes() {
        let (mut steps, mut traces) = (BTreeMap::<u64, u32>::new(), BTreeMap::<u64, u32>::new());
        let (mut random, mut frames) = (Random::new(6), 0);
        for turn in 0..4_000 {
            let section = walkable(&mut random);
            let meaning = Meaning::read(&section);
            for walk in walks(&mut random, &section) {
                let walked = walk.by_reader(&section);
                assert_eq!(walked, walk.by_definition(&meaning), "section {turn}, {walk:x?}");
                *steps.entry(walked.step.number()).or_default() += 1;
                *traces.entry(walked.traced.ending.number()).or_default() += 1;
                frames += walked.traced.frames;
            }
        }
        println!("how often each number ends a step (0: a caller): {steps:?}");
        println!("how often each number ends a trace, {frames} frames in all: {traces:?}");
        for number in (21..=28).chain([0, 41]) {
            assert!(steps.get(&number).is_some_and(|&count| count >= 50), "{number}: {steps:?}");
        }
        for number in (21..=28).chain([30, 31, 41, 42, 43]) {
            assert!(traces.get(&number).is_some_and(|&count| count >= 50), "{number}: {traces:?}");
        }
    }

    // Some of the traces with limit 0 end in the last frame that it allows, by 30 and by 31, and some would go on.
    #[test]
    fn the_usual_limit_is_filled() {
        let (mut random, mut counts) = (Random::new(8), BTreeMap::<(u64, u64), u32>::new());
        for _ in 0..4_000 {
            let section = walkable(&mut random);
            for walk in walks(&mut random, &section).into_iter().filter(|walk| walk.limit == 0) {
                let traced = walk.by_reader(&section).traced;
                *counts.entry((traced.frames, traced.ending.number())).or_default() += 1;
            }
        }
        println!("how often limit 0 comes to so many frames and this ending: {counts:?}");
        let at_least = |frames, ending, count| counts.get(&(frames, ending)).is_some_and(|&times| times >= count);
        assert!(at_least(127, 30, 5) && at_least(128, 30, 5) && at_least(128, 31, 25), "{counts:?}");
        assert!(counts.keys().all(|&(frames, _)| frames <= 128), "{counts:?}");
    }

    // By how many frames a trace goes farther than it would with mask 0, which ends it at the first signed row.
    #[test]
    fn masks_lead_through_signed_rows() {
        let (mut random, mut farther) = (Random::new(7), BTreeMap::<u64, u32>::new());
        for _ in 0..4_000 {
            let section = walkable(&mut random);
            for walk in walks(&mut random, &section).into_iter().filter(|walk| walk.process.mask != 0) {
                let unmasked = Walk { process: Process { mask: 0, ..walk.process }, ..walk.clone() };
                let [with, without] = [walk, unmasked].map(|walk| walk.by_reader(&section).traced.frames);
                *farther.entry(with.checked_sub(without).expect("no mask takes a frame away")).or_default() += 1;
            }
        }
        println!("how often a trace goes so many frames farther by its mask: {farther:?}");
        let at_least = |frames| farther.range(frames..).map(|(_, count)| count).sum::<u32>();
        assert!(at_least(1) >= 1_000 && at_least(4) >= 100, "{farther:?}");
    }

    #[test]
    fn a_seed_gives_the_same_sections_again() {
        assert!(sections(3, 100).eq(sections(3, 100)));
        assert!(sections(3, 100).ne(sections(4, 100)));
    }
}
