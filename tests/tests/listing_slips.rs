//! Shows that the stored sections can tell a wrong listing: every slip that a reader could make, made here on purpose,
//! lists some of them otherwise.
//!
//! A listing is made from a section's bytes by its ways, a function for each thing that can go wrong. The right ways
//! come to the reader's listing of every stored section; a slip is the right ways but for one or two of them.

use std::collections::BTreeSet;
use suntimpani_tests::cases;
use suntimpani_tests::reader::{self, Base, Block, Header, Line, Order, Place, Refusal, Verdict};

/// What a line tells; a refused section's one line tells its numbers.
#[derive(Clone, Copy, Debug, PartialEq)]
enum Told {
    Function { index: i64, start: i64, size: i64, block: Option<i64> },
    Row { start: i64, base: Base, cfa: i64, ra: Option<i64>, fp: Option<i64>, signed: bool },
    Refused { number: u64, index: Option<u64> },
}

type Lines = Vec<Told>;

/// A section taken apart; without entries and row bytes where its header is refused.
struct Scene<'a> {
    verdict: Verdict,
    big: bool,
    amd64: bool,
    relative: bool,
    auxiliary: i64,
    entries: Vec<Entry>,
    area: &'a [u8],
}

/// An entry as it stands.
struct Entry {
    index: i64,
    start: Field,
    size: Field,
    first_row: usize,
    row_count: usize,
    info: u8,
    repeat: u8,
}

/// A number of so many bytes.
#[derive(Clone, Copy)]
struct Field {
    unsigned: i64,
    bytes: usize,
}

#[derive(Clone, Copy)]
struct Ways {
    /// The entries that are told, in their order.
    entries: fn(&Scene) -> Vec<usize>,
    has_line: fn(&Entry) -> bool,
    /// The index that is told, by the number of lines before.
    index: fn(&Entry, usize) -> i64,
    start: fn(&Scene, &Entry) -> i64,
    size: fn(&Scene, &Entry) -> i64,
    block: fn(&Entry) -> Option<i64>,
    /// Where the rows begin, by where those of the entry before ended.
    first_row: fn(&Entry, usize) -> usize,
    /// How many rows are read, as far as they can be.
    row_count: fn(&Entry) -> usize,
    /// By the start that was told of the row before, 0 for the first.
    row_start: fn(&Scene, &Entry, Field, i64) -> i64,
    base: fn(u8) -> Base,
    offset: fn(&Scene, Field) -> i64,
    /// The places of RA and FP by a row's offsets.
    ra: fn(&Scene, &[i64]) -> Option<i64>,
    fp: fn(&Scene, &[i64]) -> Option<i64>,
    signed: fn(&Scene, &Entry, u8) -> bool,
    /// The rows of a function, as they are yielded.
    yielded: fn(&Entry, Lines) -> Lines,
    /// All lines, as they are printed.
    printed: fn(Lines) -> Lines,
    refused: fn(&Ways, &Scene, Refusal) -> Lines,
}

const RIGHT: Ways = Ways {
    entries: |scene| (0..scene.entries.len()).collect(),
    has_line: |_| true,
    index: |entry, _| entry.index,
    start: |scene, entry| entry.start.signed() + scene.position(entry),
    size: |_, entry| entry.size.unsigned,
    block: |entry| entry.is_repeated().then_some(entry.repeat.into()),
    first_row: |entry, _| entry.first_row,
    row_count: |entry| entry.row_count,
    row_start: |_, _, field, _| field.unsigned,
    base: |info| if info & 1 == 1 { Base::Sp } else { Base::Fp },
    offset: |_, field| field.signed(),
    ra: |scene, offsets| offsets.get(1).copied().filter(|_| !scene.amd64),
    fp: |scene, offsets| offsets.get(if scene.amd64 { 1 } else { 2 }).copied(),
    signed: |scene, _, info| info & 0x80 != 0 && !scene.amd64,
    yielded: |_, rows| rows,
    printed: |lines| lines,
    refused: |_, _, refusal| refused_with(refusal.number, Some(refusal.index)),
};

static SLIPS: [(&str, Ways); 82] = [
    // Which functions, and in which order.
    ("functions come in the order of their starts", Ways { entries: |s| sorted(s, RIGHT.start), ..RIGHT }),
    ("functions come in the order of their rows", Ways { entries: |s| sorted(s, |_, e| e.first_row as i64), ..RIGHT }),
    ("functions come last first", Ways { entries: |s| (0..s.entries.len()).rev().collect(), ..RIGHT }),
    ("functions of one start are told once", Ways { entries: first_of_each_start, ..RIGHT }),
    ("functions that share their rows are told once", Ways { entries: first_of_each_row, ..RIGHT }),
    ("a function of size 0 is left out", Ways { entries: |s| those(s, |e| e.size.unsigned > 0), ..RIGHT }),
    ("the first function is left out", Ways { entries: |s| (1..s.entries.len()).collect(), ..RIGHT }),
    ("the last function is left out", Ways { entries: |s| (1..s.entries.len()).map(|at| at - 1).collect(), ..RIGHT }),
    ("a function without rows has no line", Ways { has_line: |e| e.row_count > 0, ..RIGHT }),
    ("a function without rows ends the listing", Ways { entries: up_to_no_rows, ..RIGHT }),
    ("a repeated function has no line", Ways { has_line: |e| !e.is_repeated(), ..RIGHT }),
    ("all functions stand above all rows", Ways { printed: functions_first, ..RIGHT }),
    ("functions count from 1", Ways { index: |e, _| e.index + 1, ..RIGHT }),
    ("an index counts the lines", Ways { index: |_, lines| lines as i64, ..RIGHT }),
    ("an index has 8 bits", Ways { index: |e, _| e.index & 0xff, ..RIGHT }),
    // Start, size and block.
    ("start fields are told under flag 0x4", Ways { start: |_, e| e.start.signed(), ..RIGHT }),
    (
        "start fields count from themselves without flag 0x4",
        Ways { start: |s, e| e.start.signed() + s.field(e), ..RIGHT },
    ),
    (
        "fields stand right behind the header",
        Ways { start: |s, e| (RIGHT.start)(s, e) - s.position(e).min(s.auxiliary), ..RIGHT },
    ),
    (
        "starts count from the first field",
        Ways { start: |s, e| (RIGHT.start)(s, e) - s.position(e).min(20 * e.index), ..RIGHT },
    ),
    ("starts are unsigned", Ways { start: |s, e| e.start.unsigned + s.position(e), ..RIGHT }),
    ("starts are little-endian", Ways { start: |s, e| s.as_little(e.start).signed() + s.position(e), ..RIGHT }),
    ("starts have 32 bits", Ways { start: |s, e| ((RIGHT.start)(s, e) as i32).into(), ..RIGHT }),
    ("starts are told without their sign", Ways { start: |s, e| (RIGHT.start)(s, e).abs(), ..RIGHT }),
    ("a size is signed", Ways { size: |_, e| e.size.signed(), ..RIGHT }),
    ("sizes are little-endian", Ways { size: |s, e| s.as_little(e.size).unsigned, ..RIGHT }),
    ("the size is that of the next function", Ways { size: size_of_next, ..RIGHT }),
    ("the end is told for the size", Ways { size: |s, e| (RIGHT.start)(s, e) + e.size.unsigned, ..RIGHT }),
    ("the size is that of one block", Ways { size: |_, e| (RIGHT.block)(e).unwrap_or(e.size.unsigned), ..RIGHT }),
    (
        "the repeat size of a plain function is told",
        Ways { block: |e| Some(e.repeat.into()).filter(|repeat| *repeat > 0), ..RIGHT },
    ),
    ("every function has a block", Ways { block: |e| Some((RIGHT.block)(e).unwrap_or(0)), ..RIGHT }),
    ("blocks are not told", Ways { block: |_| None, ..RIGHT }),
    ("a repeat size is signed", Ways { block: |e| e.is_repeated().then_some((e.repeat as i8).into()), ..RIGHT }),
    ("the key's bit is that of repeated blocks", Ways { block: |e| key_b(e).then_some(e.repeat.into()), ..RIGHT }),
    // Which rows, and how many.
    ("rows begin where those of the function before ended", Ways { first_row: |_, end| end, ..RIGHT }),
    ("rows begin where the row bytes begin", Ways { first_row: |_, _| 0, ..RIGHT }),
    ("the first row is told twice", Ways { yielded: |_, rows| [&rows[..rows.len().min(1)], &rows].concat(), ..RIGHT }),
    (
        "the last row is told twice",
        Ways { yielded: |_, rows| [&rows[..], &rows[rows.len().max(1) - 1..]].concat(), ..RIGHT },
    ),
    (
        "every row is told twice",
        Ways { yielded: |_, rows| rows.into_iter().flat_map(|row| [row, row]).collect(), ..RIGHT },
    ),
    ("the first row is skipped", Ways { yielded: |_, rows| rows.into_iter().skip(1).collect(), ..RIGHT }),
    ("there are no more one row too early", Ways { row_count: |e| e.row_count.max(1) - 1, ..RIGHT }),
    ("there are no more one row too late", Ways { row_count: |e| e.row_count + 1, ..RIGHT }),
    ("rows go on into those of the next functions", Ways { row_count: |e| e.row_count + 100, ..RIGHT }),
    (
        "rows go on while their starts rise",
        Ways { row_count: |e| e.row_count + 100, yielded: |_, rows| while_rising(rows), ..RIGHT },
    ),
    ("every function has a row", Ways { row_count: |e| e.row_count.max(1), ..RIGHT }),
    ("no function has more than one row", Ways { row_count: |e| e.row_count.min(1), ..RIGHT }),
    ("a count of rows has 8 bits", Ways { row_count: |e| e.row_count & 0xff, ..RIGHT }),
    ("every second row is skipped", Ways { yielded: |_, rows| rows.into_iter().step_by(2).collect(), ..RIGHT }),
    ("rows come last first", Ways { yielded: |_, rows| rows.into_iter().rev().collect(), ..RIGHT }),
    ("rows that change nothing are left out", Ways { yielded: |_, rows| changing(rows), ..RIGHT }),
    ("rows beyond the size are left out", Ways { yielded: |e, rows| below(rows, e.size.unsigned), ..RIGHT }),
    (
        "rows beyond the block are left out",
        Ways { yielded: |e, rows| below(rows, (RIGHT.block)(e).unwrap_or(i64::MAX)), ..RIGHT },
    ),
    ("rows are told for every block", Ways { yielded: for_every_block, ..RIGHT }),
    // Row starts.
    ("row starts count from the section", Ways { row_start: |s, e, at, _| (RIGHT.start)(s, e) + at.unsigned, ..RIGHT }),
    ("row starts add up", Ways { row_start: |_, _, at, before| before + at.unsigned, ..RIGHT }),
    ("row starts are signed", Ways { row_start: |_, _, at, _| at.signed(), ..RIGHT }),
    ("row starts are little-endian", Ways { row_start: |s, _, at, _| s.as_little(at).unsigned, ..RIGHT }),
    ("row starts have 8 bits", Ways { row_start: |_, _, at, _| at.unsigned & 0xff, ..RIGHT }),
    ("row starts have 16 bits", Ways { row_start: |_, _, at, _| at.unsigned & 0xffff, ..RIGHT }),
    (
        "row starts are places in a block",
        Ways { row_start: |_, e, at, _| at.unsigned % (RIGHT.block)(e).unwrap_or(i64::MAX), ..RIGHT },
    ),
    // Base, places and mark.
    ("FP and SP are taken for each other", Ways { base: |info| (RIGHT.base)(!info), ..RIGHT }),
    ("every CFA counts from SP", Ways { base: |_| Base::Sp, ..RIGHT }),
    ("f0 is 240", Ways { offset: |_, field| field.unsigned, ..RIGHT }),
    ("offsets have 8 bits", Ways { offset: |_, field| (field.unsigned as i8).into(), ..RIGHT }),
    ("offsets are little-endian", Ways { offset: |s, field| s.as_little(field).signed(), ..RIGHT }),
    ("offsets have 16 bits", Ways { offset: |_, field| (field.signed() as i16).into(), ..RIGHT }),
    ("RA is told on AMD64", Ways { ra: |s, offsets| if s.amd64 { Some(-8) } else { (RIGHT.ra)(s, offsets) }, ..RIGHT }),
    ("the second offset is that of RA on AMD64", Ways { ra: second, fp: third, ..RIGHT }),
    ("the second offset is that of RA and of FP on AMD64", Ways { ra: second, ..RIGHT }),
    ("FP is at the second of two offsets on AArch64", Ways { fp: second_of_two, ..RIGHT }),
    (
        "RA and FP are taken for each other on AArch64",
        Ways { ra: |s, offsets| third(s, offsets).filter(|_| !s.amd64), fp: second, ..RIGHT },
    ),
    ("what is not saved is at 0", Ways { fp: |s, offsets| Some((RIGHT.fp)(s, offsets).unwrap_or(0)), ..RIGHT }),
    ("the mark is told on AMD64", Ways { signed: |_, _, info| info & 0x80 != 0, ..RIGHT }),
    ("the mark is never told", Ways { signed: |_, _, _| false, ..RIGHT }),
    ("the key's bit is the mark", Ways { signed: |s, e, _| key_b(e) && !s.amd64, ..RIGHT }),
    (
        "the key's bit is a mark too",
        Ways { signed: |s, e, info| (RIGHT.signed)(s, e, info) || key_b(e) && !s.amd64, ..RIGHT },
    ),
    // A refused section.
    ("a refused section is listed up to the fault", Ways { refused: up_to_the_fault, ..RIGHT }),
    ("a section with a sound header is listed", Ways { refused: listed_by_header, ..RIGHT }),
    ("the index of a refusal is left out", Ways { refused: |_, _, r| refused_with(r.number, None), ..RIGHT }),
    ("the index of a refusal is 0", Ways { refused: |_, _, r| refused_with(r.number, Some(0)), ..RIGHT }),
    (
        "the index of a refusal counts from 1",
        Ways { refused: |_, _, r| refused_with(r.number, Some(r.index + 1)), ..RIGHT },
    ),
    ("the index of a refusal comes first", Ways { refused: |_, _, r| refused_with(r.index, Some(r.number)), ..RIGHT }),
    ("a refused section prints nothing", Ways { refused: |_, _, _| Vec::new(), ..RIGHT }),
];

// The entries by a number of each; those of one number stay as they stand.
fn sorted(scene: &Scene, by: fn(&Scene, &Entry) -> i64) -> Vec<usize> {
    let mut order = (RIGHT.entries)(scene);
    order.sort_by_key(|&at| by(scene, &scene.entries[at]));
    order
}

fn those(scene: &Scene, wanted: fn(&Entry) -> bool) -> Vec<usize> {
    (0..scene.entries.len()).filter(|&at| wanted(&scene.entries[at])).collect()
}

fn first_of_each(scene: &Scene, by: fn(&Scene, &Entry) -> i64) -> Vec<usize> {
    let mut seen = BTreeSet::new();
    (0..scene.entries.len()).filter(|&at| seen.insert(by(scene, &scene.entries[at]))).collect()
}

fn first_of_each_start(scene: &Scene) -> Vec<usize> {
    first_of_each(scene, RIGHT.start)
}

fn first_of_each_row(scene: &Scene) -> Vec<usize> {
    first_of_each(scene, |_, entry| entry.first_row as i64)
}

fn up_to_no_rows(scene: &Scene) -> Vec<usize> {
    (0..scene.entries.len()).take_while(|&at| scene.entries[at].row_count > 0).collect()
}

fn functions_first(lines: Lines) -> Lines {
    let (functions, rows): (Lines, Lines) = lines.into_iter().partition(|told| matches!(told, Told::Function { .. }));
    [functions, rows].concat()
}

fn size_of_next(scene: &Scene, entry: &Entry) -> i64 {
    let next = scene.entries.get(entry.index as usize + 1).unwrap_or(entry);
    next.size.unsigned
}

fn key_b(entry: &Entry) -> bool {
    entry.info & 0x20 != 0
}

fn start_of(told: &Told) -> i64 {
    match told {
        Told::Row { start, .. } => *start,
        other => panic!("{other:?} is no row"),
    }
}

fn while_rising(rows: Lines) -> Lines {
    let rising = rows.windows(2).take_while(|pair| start_of(&pair[0]) < start_of(&pair[1])).count();
    rows.into_iter().take(rising + 1).collect()
}

fn below(rows: Lines, end: i64) -> Lines {
    rows.into_iter().filter(|row| start_of(row) < end).collect()
}

// A row that is the one before but for its start is left out.
fn changing(rows: Lines) -> Lines {
    let mut left: Lines = Vec::new();
    for row in rows {
        let again = left.last().is_some_and(|last| at_0(last) == at_0(&row));
        left.extend((!again).then_some(row));
    }
    left
}

fn at_0(row: &Told) -> Told {
    let mut moved = *row;
    if let Told::Row { start, .. } = &mut moved {
        *start = 0;
    }
    moved
}

// The first blocks tell it as well as all of them.
fn for_every_block(entry: &Entry, rows: Lines) -> Lines {
    let blocks = match (RIGHT.block)(entry) {
        Some(size) => (entry.size.unsigned / size).min(4),
        None => 1,
    };
    rows.repeat(blocks as usize)
}

fn second(_: &Scene, offsets: &[i64]) -> Option<i64> {
    offsets.get(1).copied()
}

fn third(_: &Scene, offsets: &[i64]) -> Option<i64> {
    offsets.get(2).copied()
}

fn second_of_two(scene: &Scene, offsets: &[i64]) -> Option<i64> {
    (RIGHT.fp)(scene, offsets).or(second(scene, offsets))
}

fn refused_with(number: u64, index: Option<u64>) -> Lines {
    vec![Told::Refused { number, index }]
}

fn up_to_the_fault(ways: &Ways, scene: &Scene, refusal: Refusal) -> Lines {
    // The counts of rows are added up behind all entries.
    let sound = if refusal.number == 15 { scene.entries.len() } else { refusal.index as usize };
    let mut lines = ways.listed(scene, &(0..sound).collect::<Vec<_>>());
    lines.extend((RIGHT.refused)(ways, scene, refusal));
    lines
}

fn listed_by_header(ways: &Ways, scene: &Scene, refusal: Refusal) -> Lines {
    if refusal.number <= 8 {
        return (RIGHT.refused)(ways, scene, refusal);
    }
    ways.listed(scene, &(RIGHT.entries)(scene))
}

impl Ways {
    fn told(&self, scene: &Scene) -> Lines {
        match scene.verdict {
            Verdict::Accepted => self.listed(scene, &(self.entries)(scene)),
            Verdict::Refused { number, index } => (self.refused)(self, scene, Refusal { number, index }),
        }
    }

    fn listed(&self, scene: &Scene, entries: &[usize]) -> Lines {
        let (mut lines, mut end) = (Vec::new(), 0);
        for entry in entries.iter().map(|&at| &scene.entries[at]) {
            if (self.has_line)(entry) {
                lines.push(self.function(scene, entry, lines.len()));
            }
            let rows;
            (rows, end) = self.rows(scene, entry, end);
            lines.extend((self.yielded)(entry, rows));
        }
        (self.printed)(lines)
    }

    fn function(&self, scene: &Scene, entry: &Entry, lines: usize) -> Told {
        Told::Function {
            index: (self.index)(entry, lines),
            start: (self.start)(scene, entry),
            size: (self.size)(scene, entry),
            block: (self.block)(entry),
        }
    }

    // The rows of an entry as far as they can be read, and where they end.
    fn rows(&self, scene: &Scene, entry: &Entry, end: usize) -> (Lines, usize) {
        let (mut rows, mut place, mut before) = (Vec::new(), (self.first_row)(entry, end), 0);
        for _ in 0..(self.row_count)(entry) {
            let Some((start, info, offsets)) = scene.row(place, entry) else { break };
            place += start.bytes + 1 + offsets.iter().map(|field| field.bytes).sum::<usize>();
            before = (self.row_start)(scene, entry, start, before);
            rows.push(self.row(scene, entry, before, info, &offsets));
        }
        (rows, place)
    }

    fn row(&self, scene: &Scene, entry: &Entry, start: i64, info: u8, offsets: &[Field]) -> Told {
        let offsets: Vec<i64> = offsets.iter().map(|field| (self.offset)(scene, *field)).collect();
        Told::Row {
            start,
            base: (self.base)(info),
            cfa: offsets[0],
            ra: (self.ra)(scene, &offsets),
            fp: (self.fp)(scene, &offsets),
            signed: (self.signed)(scene, entry, info),
        }
    }
}

impl Field {
    fn read(bytes: &[u8], big: bool) -> Field {
        let append = |number: i64, byte: &u8| number << 8 | i64::from(*byte);
        let unsigned = if big { bytes.iter().fold(0, append) } else { bytes.iter().rev().fold(0, append) };
        Field { unsigned, bytes: bytes.len() }
    }

    fn signed(self) -> i64 {
        let half = 1 << (8 * self.bytes - 1);
        if self.unsigned < half {
            self.unsigned
        } else {
            self.unsigned - 2 * half
        }
    }
}

impl Entry {
    fn read(bytes: &[u8], big: bool, index: usize) -> Entry {
        let word = |at| Field::read(&bytes[at..at + 4], big);
        Entry {
            index: index as i64,
            start: word(0),
            size: word(4),
            first_row: word(8).unsigned as usize,
            row_count: word(12).unsigned as usize,
            info: bytes[16],
            repeat: bytes[17],
        }
    }

    fn is_repeated(&self) -> bool {
        self.info & 0x10 != 0
    }
}

impl<'a> Scene<'a> {
    fn read(section: &'a [u8]) -> Scene<'a> {
        let verdict = reader::check(section);
        let header = Header::read(section).filter(|_| !(1..=8).contains(&verdict.number()));
        let Some(header) = header else {
            let (entries, area) = (Vec::new(), &section[..0]);
            return Scene { verdict, big: false, amd64: false, relative: false, auxiliary: 0, entries, area };
        };
        let big = header.order == Order::Big;
        let table = 28 + usize::from(header.auxiliary);
        let area = table + 20 * header.functions as usize;
        let entries = section[table..area].chunks(20).enumerate();
        Scene {
            verdict,
            big,
            amd64: header.abi == 3,
            relative: header.flags & 4 != 0,
            auxiliary: header.auxiliary.into(),
            entries: entries.map(|(index, bytes)| Entry::read(bytes, big, index)).collect(),
            area: &section[area..],
        }
    }

    // Where an entry's start field stands.
    fn field(&self, entry: &Entry) -> i64 {
        28 + self.auxiliary + 20 * entry.index
    }

    // What is added to it.
    fn position(&self, entry: &Entry) -> i64 {
        if self.relative {
            self.field(entry)
        } else {
            0
        }
    }

    // The same bytes, whatever the order of the section.
    fn as_little(&self, field: Field) -> Field {
        let bytes = field.unsigned.to_le_bytes();
        Field::read(&bytes[..field.bytes], self.big)
    }

    // The start, the info and the offsets of the row at a place, if one can be read there.
    fn row(&self, place: usize, entry: &Entry) -> Option<(Field, u8, Vec<Field>)> {
        let start_bytes = 1 << (entry.info & 0xf).min(2);
        let info_at = place + start_bytes;
        let info = *self.area.get(info_at)?;
        let (size_code, count) = (info >> 5 & 0x3, usize::from(info >> 1 & 0xf));
        let most = if self.amd64 { 2 } else { 3 };
        if size_code == 3 || !(1..=most).contains(&count) {
            return None;
        }
        let bytes = self.area.get(info_at + 1..info_at + 1 + (count << size_code))?;
        let offsets = bytes.chunks(1 << size_code).map(|bytes| Field::read(bytes, self.big)).collect();
        Some((Field::read(&self.area[place..info_at], self.big), info, offsets))
    }
}

// The rows of AMD64 place no RA, wherever the machine has it.
fn by_reader(section: &[u8]) -> Lines {
    let amd64 = section.get(4) == Some(&3);
    let offset = |place| match place {
        Place::Register => None,
        Place::AtOffset(offset) => Some(offset),
    };
    let told = |line: &Line| match *line {
        Line::Function { index, start, size, block } => {
            let block = if let Block::Repeated(size) = block { Some(size.into()) } else { None };
            Told::Function { index: index as i64, start, size: size.into(), block }
        }
        Line::Row(row) => Told::Row {
            start: row.start.into(),
            base: row.base,
            cfa: row.cfa_offset,
            ra: offset(row.ra).filter(|_| !amd64),
            fp: offset(row.fp),
            signed: row.signed,
        },
    };
    match reader::listing(section) {
        Ok(lines) => lines.iter().map(told).collect(),
        Err(Refusal { number, index }) => refused_with(number, Some(index)),
    }
}

#[test]
fn every_slip_is_noticed() {
    let mut noticed = vec![0; SLIPS.len()];
    for case in cases::all() {
        let (scene, right) = (Scene::read(&case.section), by_reader(&case.section));
        assert!(RIGHT.told(&scene) == right, "{}: the right ways", case.name);
        for ((_, slip), times) in SLIPS.iter().zip(&mut noticed) {
            *times += u32::from(slip.told(&scene) != right);
        }
    }
    println!("{} slips", SLIPS.len());
    for ((name, _), times) in SLIPS.iter().zip(&noticed) {
        println!("{times:>5} sections notice that {name}");
    }
    for ((name, _), times) in SLIPS.iter().zip(&noticed) {
        assert!(*times > 0, "no section notices that {name}");
    }
}
