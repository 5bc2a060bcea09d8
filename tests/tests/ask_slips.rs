//! Shows that the stored questions can tell a wrong answer to one address that is asked: every slip that a reader could
//! make, made here on purpose, gives another answer to some of them.
//!
//! An address is asked by its ways, a function for each thing that can go wrong. The right ways answer every stored
//! question as is expected; a slip is the right ways but for one or two of them.

use std::ops::RangeInclusive;
use suntimpani_tests::cases;
use suntimpani_tests::reader::{
    check, lookup, next_row, Answer, Asked, AskedOutcome, Header, Outcome, Row, RowsAt, Verdict,
};

/// A section, and where it is asked.
struct Scene<'a> {
    section: &'a [u8],
    /// Of the whole section.
    verdict: Verdict,
    /// None where it is refused.
    header: Option<Header>,
    address: u64,
    pc: u64,
}

/// A function entry as it stands, its start effective.
#[derive(Clone, Copy, Debug)]
struct Entry {
    index: usize,
    start: i128,
    /// What is added to the start field under flag 0x4.
    position: i128,
    size: i128,
    first_row: usize,
    rows: u64,
    info: u8,
    repeat: u8,
}

/// A row before it is tried, its fixed part being inside.
struct Seen {
    start: u32,
    before: Option<u32>,
    size_code: u8,
    count: u8,
    amd64: bool,
    ends_inside: bool,
    /// Of the start.
    width: usize,
}

/// The function landed on, as it was read.
struct Landed<'a> {
    scene: &'a Scene<'a>,
    entry: Entry,
    covers: bool,
    /// The rule of its first fault.
    fault: Option<u64>,
    /// Whether a row was at fault, and not the entry itself.
    in_a_row: bool,
    /// The rows before it.
    rows: Vec<Row>,
    o: i128,
    row: Option<usize>,
}

#[derive(Clone, Copy)]
struct Ways {
    /// The answer where nothing is looked for.
    early: fn(&Scene) -> Option<Asked>,
    d: fn(&Scene) -> i128,
    start: fn(&Entry) -> i128,
    middle: fn(usize, usize) -> usize,
    begun: fn(i128, i128) -> bool,
    /// Whether an entry that was compared ends the halving, by the entry and d.
    ends: fn(&Entry, i128) -> bool,
    /// The index landed on, by low and d.
    landed: fn(&Scene, usize, i128) -> Option<usize>,
    compared: fn(&Scene, u64) -> u64,
    covers: fn(&Entry, i128) -> bool,
    entry_fault: fn(&Scene, &Entry) -> Option<u64>,
    row_fault: fn(&Seen) -> Option<u64>,
    o: fn(&Entry, i128) -> i128,
    row: fn(&[Row], i128) -> Option<usize>,
    outcome: fn(&Landed) -> AskedOutcome,
    /// The answer as it is told.
    told: fn(&Scene, Asked) -> Asked,
}

const RIGHT: Ways = Ways {
    early: |s| s.refused_header().or(s.unsorted()),
    d: |s| i128::from(s.pc) - i128::from(s.address),
    start: |e| e.start,
    middle: |low, high| (low + high) / 2,
    begun: |start, d| start <= d,
    ends: |_, _| false,
    landed: |_, low, _| low.checked_sub(1),
    compared: |_, compared| compared,
    covers: |e, d| e.start <= d && d < e.start + e.size,
    entry_fault: |s, e| e.broken_9().or(e.broken_10()).or(e.broken_11(s)),
    row_fault: |r| r.broken_12().or(r.broken_11()).or(r.broken_13()),
    o: |e, d| if e.repeats() && e.repeat > 0 { (d - e.start) % i128::from(e.repeat) } else { d - e.start },
    row: |rows, o| rows.iter().rposition(|row| i128::from(row.start) <= o),
    outcome: |l| match (l.covers, l.fault) {
        (false, _) => AskedOutcome::NoFunction,
        (true, Some(_)) => l.damaged(),
        (true, None) => l.found_or_not(),
    },
    told: |_, asked| asked,
};

const SLIPS: [(&str, Ways); 64] = [
    // Before anything is looked for.
    ("the whole section is checked first", Ways { early: |s| s.refused().or(s.unsorted()), ..RIGHT }),
    ("a refused section is told by 44", Ways { early: |s| (RIGHT.early)(s).or(s.refused_by_44()), ..RIGHT }),
    ("45 comes before the header's faults", Ways { early: |s| s.unsorted_by_byte().or(s.refused_header()), ..RIGHT }),
    ("the flag is not tried", Ways { early: |s| s.refused_header(), ..RIGHT }),
    ("the flag is taken to be 0x2", Ways { early: |s| s.refused_header().or(s.unflagged(2)), ..RIGHT }),
    ("an unsorted section is scanned", Ways { early: |s| (RIGHT.early)(s).map(|early| s.scanned(early)), ..RIGHT }),
    (
        "an unsorted section is answered with 21",
        Ways { told: |_, a| a.instead_of(45, AskedOutcome::NoFunction), ..RIGHT },
    ),
    ("45 has the number of entries for its count", Ways { told: |s, a| a.counting(45..=45, s.count()), ..RIGHT }),
    (
        "a header's fault has the number of entries",
        Ways { told: |s, a| a.counting(1..=8, s.claimed().max(1)), ..RIGHT },
    ),
    ("a header's fault is told by 1", Ways { told: |_, a| a.numbered(1..=8, 1), ..RIGHT }),
    ("14 is tried of the whole section", Ways { told: |s, a| s.unless_refused_by(14, a), ..RIGHT }),
    ("15 is tried", Ways { told: |s, a| s.unless_refused_by(15, a), ..RIGHT }),
    ("every entry is tried", Ways { told: |s, a| s.unless_any(|_| true, a), ..RIGHT }),
    ("every entry that is compared is tried", Ways { told: |s, a| s.unless_any(|e| s.is_compared(e), a), ..RIGHT }),
    // The halving rule.
    ("PC - 1 is asked", Ways { d: |s| i128::from(s.pc) - i128::from(s.address) - 1, ..RIGHT }),
    ("the distance is of 64 bits", Ways { d: |s| i128::from(s.pc.wrapping_sub(s.address) as i64), ..RIGHT }),
    ("the distance is of 32 bits", Ways { d: |s| i128::from(s.pc.wrapping_sub(s.address) as i32), ..RIGHT }),
    ("the distance is never negative", Ways { d: |s| i128::from(s.pc.wrapping_sub(s.address)), ..RIGHT }),
    ("start fields are compared under flag 0x4", Ways { start: |e| e.start - e.position, ..RIGHT }),
    ("the middle is rounded up", Ways { middle: |low, high| (low + high).div_ceil(2).min(high - 1), ..RIGHT }),
    ("the last of what is left is compared", Ways { middle: |_, high| high - 1, ..RIGHT }),
    ("a start at d has not begun", Ways { begun: |start, d| start < d, ..RIGHT }),
    ("an entry that covers ends the halving", Ways { ends: |e, d| (RIGHT.covers)(e, d), ..RIGHT }),
    ("a start at d ends the halving", Ways { ends: |e, d| e.start == d, ..RIGHT }),
    ("entry low is landed on", Ways { landed: |s, low, _| Some(low).filter(|&low| low < s.entries()), ..RIGHT }),
    (
        "entry low is landed on, or the last",
        Ways { landed: |s, low, _| s.entries().checked_sub(1).map(|l| low.min(l)), ..RIGHT },
    ),
    ("entry low - 2 is landed on", Ways { landed: |_, low, _| low.checked_sub(2), ..RIGHT }),
    (
        "the first that covers is looked for",
        Ways { landed: |s, _, d| (0..s.entries()).find(|&i| s.covers(i, d)), ..RIGHT },
    ),
    (
        "the last that covers is looked for",
        Ways { landed: |s, _, d| (0..s.entries()).rfind(|&i| s.covers(i, d)), ..RIGHT },
    ),
    ("the entry before is tried where low - 1 does not cover", Ways { landed: |s, low, d| s.near(low, d), ..RIGHT }),
    (
        "the last that has begun is landed on",
        Ways { landed: |s, _, d| (0..s.entries()).rfind(|&i| s.entry(i).start <= d), ..RIGHT },
    ),
    ("22 is answered where two cover", Ways { told: |s, a| s.disputed(a), ..RIGHT }),
    ("the landing counts as a comparison", Ways { compared: |_, compared| compared + 1, ..RIGHT }),
    ("every entry counts as compared", Ways { compared: |s, _| s.count(), ..RIGHT }),
    // Whether the function landed on covers.
    ("whether it covers is not tried", Ways { covers: |_, _| true, ..RIGHT }),
    ("the end is covered", Ways { covers: |e, d| e.start <= d && d <= e.start + e.size, ..RIGHT }),
    ("the last byte is not covered", Ways { covers: |e, d| e.start <= d && d < e.start + e.size - 1, ..RIGHT }),
    ("a size of 0 covers its start", Ways { covers: |e, d| e.start <= d && d < e.start + e.size.max(1), ..RIGHT }),
    ("a size is signed", Ways { covers: |e, d| e.start <= d && d < e.start + i128::from(e.size as i32), ..RIGHT }),
    (
        "44 is told although it does not cover",
        Ways { outcome: |l| l.fault.map_or((RIGHT.outcome)(l), |_| l.damaged()), ..RIGHT },
    ),
    // What the function landed on breaks.
    ("44 is not told but 21", Ways { told: |_, a| a.instead_of(44, AskedOutcome::NoFunction), ..RIGHT }),
    (
        "44 is not told but 23",
        Ways { outcome: |l| l.unless_damaged(AskedOutcome::NoRow { function: l.index() }), ..RIGHT },
    ),
    (
        "44 is not told but the rule's number",
        Ways { outcome: |l| l.unless_damaged(AskedOutcome::Unsound(l.fault.unwrap_or(0))), ..RIGHT },
    ),
    ("44 has the count 0", Ways { told: |_, a| a.counting(44..=44, 0), ..RIGHT }),
    ("44 has the index 0", Ways { outcome: |l| l.unless_damaged(AskedOutcome::Damaged { function: 0 }), ..RIGHT }),
    ("44 has the index of the first damaged function", Ways { told: |s, a| s.first_damaged(a), ..RIGHT }),
    (
        "what it breaks is not tried",
        Ways { outcome: |l| if l.covers { l.found_or_not() } else { AskedOutcome::NoFunction }, ..RIGHT },
    ),
    (
        "its rows are not tried",
        Ways { outcome: |l| if l.in_a_row && l.covers { l.found_or_not() } else { (RIGHT.outcome)(l) }, ..RIGHT },
    ),
    ("rows are tried up to the one found", Ways { outcome: |l| l.up_to_the_row(), ..RIGHT }),
    (
        "23 comes before 44",
        Ways { outcome: |l| if l.covers && l.row.is_none() { l.found_or_not() } else { (RIGHT.outcome)(l) }, ..RIGHT },
    ),
    ("9 is not tried", Ways { entry_fault: |s, e| e.broken_10().or(e.broken_11(s)), ..RIGHT }),
    ("10 is not tried", Ways { entry_fault: |s, e| e.broken_9().or(e.broken_11(s)), ..RIGHT }),
    (
        "a first row offset is not tried without rows",
        Ways { entry_fault: |s, e| e.broken_9().or(e.broken_10()).or(e.broken_11(s).filter(|_| e.rows > 0)), ..RIGHT },
    ),
    (
        "a first row offset at the end is not sound",
        Ways { entry_fault: |s, e| (RIGHT.entry_fault)(s, e).or(e.at_the_end(s)), ..RIGHT },
    ),
    (
        "rows without offsets are sound",
        Ways { row_fault: |r| r.broken_12().filter(|_| r.count > 0).or(r.broken_11()).or(r.broken_13()), ..RIGHT },
    ),
    (
        "three offsets are sound on AMD64",
        Ways {
            row_fault: |r| r.broken_12().filter(|_| !r.amd64 || r.count != 3).or(r.broken_11()).or(r.broken_13()),
            ..RIGHT
        },
    ),
    (
        "rows that start alike are sound",
        Ways {
            row_fault: |r| r.broken_12().or(r.broken_11()).or(r.broken_13().filter(|_| r.before != Some(r.start))),
            ..RIGHT
        },
    ),
    (
        "starts are compared in the other byte order",
        Ways { row_fault: |r| r.broken_12().or(r.broken_11()).or(r.in_other_order().broken_13()), ..RIGHT },
    ),
    ("12 is not tried", Ways { row_fault: |r| r.broken_11().or(r.broken_13()), ..RIGHT }),
    ("13 is not tried", Ways { row_fault: |r| r.broken_12().or(r.broken_11()), ..RIGHT }),
    (
        "14 is tried of the function landed on",
        Ways { outcome: |l| if l.covers && l.begins_too_low() { l.damaged() } else { (RIGHT.outcome)(l) }, ..RIGHT },
    ),
    // The row.
    ("an offset in blocks is not reduced", Ways { o: |e, d| d - e.start, ..RIGHT }),
    (
        "the row is one that starts below o",
        Ways { row: |rows, o| rows.iter().rposition(|row| i128::from(row.start) < o), ..RIGHT },
    ),
    ("the last row is told", Ways { row: |rows, _| rows.len().checked_sub(1), ..RIGHT }),
];

/// What is done to an answer by its number.
trait Retold {
    fn instead_of(self, number: u64, outcome: AskedOutcome) -> Asked;
    fn counting(self, numbers: RangeInclusive<u64>, compared: u64) -> Asked;
    fn numbered(self, numbers: RangeInclusive<u64>, number: u64) -> Asked;
}

impl Retold for Asked {
    fn instead_of(self, number: u64, outcome: AskedOutcome) -> Asked {
        if self.refusal() == number {
            Asked { outcome, ..self }
        } else {
            self
        }
    }

    fn counting(self, numbers: RangeInclusive<u64>, compared: u64) -> Asked {
        if numbers.contains(&self.refusal()) {
            Asked { compared, ..self }
        } else {
            self
        }
    }

    fn numbered(self, numbers: RangeInclusive<u64>, number: u64) -> Asked {
        if numbers.contains(&self.refusal()) {
            Asked { outcome: AskedOutcome::Unsound(number), ..self }
        } else {
            self
        }
    }
}

fn nothing_compared(outcome: AskedOutcome) -> Asked {
    Asked { outcome, compared: 0 }
}

impl Scene<'_> {
    fn refused_header(&self) -> Option<Asked> {
        match self.verdict {
            Verdict::Refused { number: number @ 1..=8, .. } => Some(nothing_compared(AskedOutcome::Unsound(number))),
            _ => None,
        }
    }

    fn unsorted(&self) -> Option<Asked> {
        self.unflagged(1)
    }

    fn unflagged(&self, flag: u8) -> Option<Asked> {
        self.header.filter(|header| header.flags & flag == 0).map(|_| nothing_compared(AskedOutcome::Unsorted))
    }

    fn unsorted_by_byte(&self) -> Option<Asked> {
        let is_set = self.section.get(3).is_some_and(|flags| flags & 1 == 1);
        (!is_set).then(|| nothing_compared(AskedOutcome::Unsorted))
    }

    fn refused(&self) -> Option<Asked> {
        match self.verdict {
            Verdict::Refused { number, .. } => Some(nothing_compared(AskedOutcome::Unsound(number))),
            Verdict::Accepted => None,
        }
    }

    fn refused_by_44(&self) -> Option<Asked> {
        match self.verdict {
            Verdict::Refused { index: function, .. } => Some(nothing_compared(AskedOutcome::Damaged { function })),
            Verdict::Accepted => None,
        }
    }

    // The answer of a lookup in place of 45.
    fn scanned(&self, early: Asked) -> Asked {
        let Answer { outcome, compared } = lookup(self.section, self.address, self.pc);
        let outcome = match outcome {
            Outcome::Found { function, number, row } => AskedOutcome::Found { function, number, row },
            Outcome::NoFunction => AskedOutcome::NoFunction,
            Outcome::NoRow { function } => AskedOutcome::NoRow { function },
            Outcome::Disputed { .. } => AskedOutcome::Unsound(22),
            Outcome::SectionRefused { .. } => early.outcome,
        };
        if early.refusal() == 45 {
            Asked { outcome, compared }
        } else {
            early
        }
    }

    fn entries(&self) -> usize {
        self.header.map_or(0, |header| header.functions as usize)
    }

    fn count(&self) -> u64 {
        self.entries() as u64
    }

    fn row_bytes(&self) -> usize {
        self.header.map_or(0, |header| header.row_bytes as usize)
    }

    // What the bytes of a refused header say.
    fn claimed(&self) -> u64 {
        Header::read(self.section).map_or(0, |header| header.functions.into())
    }

    fn unsigned(&self, at: usize, width: usize) -> u32 {
        let big = self.section[0] == 0xde;
        let put = |number: u32, place: usize| number << 8 | u32::from(self.section[at + place]);
        if big {
            (0..width).fold(0, put)
        } else {
            (0..width).rev().fold(0, put)
        }
    }

    fn table_at(&self) -> usize {
        28 + usize::from(self.section[7])
    }

    fn entry(&self, index: usize) -> Entry {
        let at = self.table_at() + 20 * index;
        let position = if self.section[3] & 4 == 0 { 0 } else { at as i128 };
        Entry {
            index,
            start: i128::from(self.unsigned(at, 4) as i32) + position,
            position,
            size: self.unsigned(at + 4, 4).into(),
            first_row: self.unsigned(at + 8, 4) as usize,
            rows: self.unsigned(at + 12, 4).into(),
            info: self.section[at + 16],
            repeat: self.section[at + 17],
        }
    }

    fn covers(&self, index: usize, d: i128) -> bool {
        (RIGHT.covers)(&self.entry(index), d)
    }

    // Entry low - 1, or the one before it where that one covers and it does not.
    fn near(&self, low: usize, d: i128) -> Option<usize> {
        let before = low.checked_sub(2).filter(|&index| self.covers(index, d));
        before.filter(|_| !self.covers(low - 1, d)).or(low.checked_sub(1))
    }

    fn fault(&self, index: usize) -> Option<u64> {
        let entry = self.entry(index);
        (RIGHT.entry_fault)(self, &entry).or_else(|| RIGHT.rows_of(self, &entry).1)
    }

    fn is_compared(&self, index: usize) -> bool {
        RIGHT.halved(self, (RIGHT.d)(self)).1.contains(&index)
    }

    // 44 with the first of some entries that breaks 9 to 13, where a row, 21 or 23 is right.
    fn unless_any(&self, tried: impl Fn(usize) -> bool, asked: Asked) -> Asked {
        let mut entries = (0..self.entries()).filter(|&index| tried(index));
        match entries.find(|&index| self.fault(index).is_some()) {
            Some(index) if [0, 21, 23].contains(&asked.refusal()) => {
                Asked { outcome: AskedOutcome::Damaged { function: index as u64 }, ..asked }
            }
            _ => asked,
        }
    }

    // 44 where the whole section is refused with this number.
    fn unless_refused_by(&self, number: u64, asked: Asked) -> Asked {
        match self.verdict {
            Verdict::Refused { number: refused, index: function } if refused == number && asked.compared > 0 => {
                Asked { outcome: AskedOutcome::Damaged { function }, ..asked }
            }
            _ => asked,
        }
    }

    fn first_damaged(&self, asked: Asked) -> Asked {
        let first = (0..self.entries()).find(|&index| self.fault(index).is_some());
        match first {
            Some(first) => asked.instead_of(44, AskedOutcome::Damaged { function: first as u64 }),
            None => asked,
        }
    }

    // 22 where a row or 23 is right.
    fn disputed(&self, asked: Asked) -> Asked {
        let d = (RIGHT.d)(self);
        let two_cover = (0..self.entries()).filter(|&index| self.covers(index, d)).count() > 1;
        if two_cover {
            asked.numbered(0..=0, 22).numbered(23..=23, 22)
        } else {
            asked
        }
    }
}

impl Entry {
    fn repeats(&self) -> bool {
        self.info & 0x10 != 0
    }

    fn broken_9(&self) -> Option<u64> {
        (self.info & 0xc0 != 0 || self.info & 0xf > 2).then_some(9)
    }

    fn broken_10(&self) -> Option<u64> {
        (self.repeats() && self.repeat == 0).then_some(10)
    }

    fn broken_11(&self, scene: &Scene) -> Option<u64> {
        (self.first_row > scene.row_bytes()).then_some(11)
    }

    fn at_the_end(&self, scene: &Scene) -> Option<u64> {
        (self.first_row == scene.row_bytes()).then_some(11)
    }
}

impl Seen {
    fn broken_12(&self) -> Option<u64> {
        let most = if self.amd64 { 2 } else { 3 };
        (self.size_code == 3 || self.count == 0 || self.count > most).then_some(12)
    }

    fn broken_11(&self) -> Option<u64> {
        (!self.ends_inside).then_some(11)
    }

    fn in_other_order(&self) -> Seen {
        let turned = |start: u32| start.swap_bytes() >> (32 - 8 * self.width);
        Seen { start: turned(self.start), before: self.before.map(turned), ..*self }
    }

    fn broken_13(&self) -> Option<u64> {
        self.before.is_some_and(|before| self.start <= before).then_some(13)
    }
}

impl Landed<'_> {
    fn index(&self) -> u64 {
        self.entry.index as u64
    }

    fn damaged(&self) -> AskedOutcome {
        AskedOutcome::Damaged { function: self.index() }
    }

    fn found_or_not(&self) -> AskedOutcome {
        let function = self.index();
        match self.row {
            Some(number) => AskedOutcome::Found { function, number: number as u64, row: self.rows[number] },
            None => AskedOutcome::NoRow { function },
        }
    }

    fn unless_damaged(&self, otherwise: AskedOutcome) -> AskedOutcome {
        match (RIGHT.outcome)(self) {
            AskedOutcome::Damaged { .. } => otherwise,
            right => right,
        }
    }

    // The first row that starts above o ends the trial.
    fn up_to_the_row(&self) -> AskedOutcome {
        let ended = self.rows.iter().any(|row| i128::from(row.start) > self.o);
        if self.covers && ended {
            self.found_or_not()
        } else {
            (RIGHT.outcome)(self)
        }
    }

    fn begins_too_low(&self) -> bool {
        let before = self.entry.index.checked_sub(1).map(|index| self.scene.entry(index));
        before.is_some_and(|before| self.entry.start < before.start + before.size)
    }
}

impl Ways {
    fn ask(&self, scene: &Scene) -> Asked {
        let asked = (self.early)(scene).unwrap_or_else(|| self.sought(scene));
        (self.told)(scene, asked)
    }

    fn sought(&self, scene: &Scene) -> Asked {
        let d = (self.d)(scene);
        let (low, compared) = self.halved(scene, d);
        let outcome = match (self.landed)(scene, low, d) {
            Some(index) => self.landed_on(scene, index, d),
            None => AskedOutcome::NoFunction,
        };
        Asked { outcome, compared: (self.compared)(scene, compared.len() as u64) }
    }

    // Where low ends, and which entries were compared.
    fn halved(&self, scene: &Scene, d: i128) -> (usize, Vec<usize>) {
        let (mut low, mut high, mut compared) = (0, scene.entries(), Vec::new());
        while low < high {
            let middle = (self.middle)(low, high);
            let entry = scene.entry(middle);
            compared.push(middle);
            if (self.ends)(&entry, d) {
                return (middle + 1, compared);
            }
            if (self.begun)((self.start)(&entry), d) {
                low = middle + 1;
            } else {
                high = middle;
            }
        }
        (low, compared)
    }

    fn landed_on(&self, scene: &Scene, index: usize, d: i128) -> AskedOutcome {
        let entry = scene.entry(index);
        let entry_fault = (self.entry_fault)(scene, &entry);
        let (rows, row_fault) = self.rows_of(scene, &entry);
        let o = (self.o)(&entry, d);
        let row = (self.row)(&rows, o);
        let fault = entry_fault.or(row_fault);
        let (covers, in_a_row) = ((self.covers)(&entry, d), entry_fault.is_none() && row_fault.is_some());
        (self.outcome)(&Landed { scene, entry, covers, fault, in_a_row, rows, o, row })
    }

    // The rows before the first fault, and its rule. Where the entry is at fault there may be none to be read.
    fn rows_of(&self, scene: &Scene, entry: &Entry) -> (Vec<Row>, Option<u64>) {
        let (row_type, area) = (entry.info & 0xf, scene.table_at() + 20 * scene.entries());
        let mut at = area.saturating_add(entry.first_row);
        let mut rows: Vec<Row> = Vec::new();
        if row_type > 2 {
            return (rows, None);
        }
        let width = 1 << row_type;
        for _ in 0..entry.rows {
            if at + width + 1 > scene.section.len() {
                return (rows, Some(11));
            }
            let seen = seen(scene, at, width, rows.last().map(|row| row.start));
            if let Some(fault) = (self.row_fault)(&seen) {
                return (rows, Some(fault));
            }
            let place = RowsAt { abi: scene.section[4].into(), row_type: row_type.into(), at: at as u64, left: 1 };
            let next = next_row(scene.section, place);
            let Some(row) = next.row else { return (rows, None) };
            rows.push(row);
            at = next.rest.at as usize;
        }
        (rows, None)
    }
}

fn seen(scene: &Scene, at: usize, width: usize, before: Option<u32>) -> Seen {
    let info = scene.section[at + width];
    let (size_code, count) = (info >> 5 & 0x3, info >> 1 & 0xf);
    let end = at + width + 1 + (usize::from(count) << size_code);
    Seen {
        start: scene.unsigned(at, width),
        before,
        size_code,
        count,
        amd64: scene.section[4] == 3,
        ends_inside: end <= scene.section.len(),
        width,
    }
}

// Every stored question, with the answer that is right.
fn for_each_question(mut ask: impl FnMut(&Scene, Asked)) {
    for case in cases::all() {
        let verdict = check(&case.section);
        let sound = !matches!(verdict, Verdict::Refused { number: 1..=8, .. });
        let header = Header::read(&case.section).filter(|_| sound);
        for question in &case.questions {
            let (address, pc) = (question.address, question.pc);
            ask(&Scene { section: &case.section, verdict, header, address, pc }, case.asked_of(question));
        }
    }
}

#[test]
fn the_right_ways_come_to_the_right_answer() {
    for_each_question(|scene, right| {
        let Scene { section, address, pc, .. } = scene;
        assert_eq!(RIGHT.ask(scene), right, "{address:x}, PC {pc:x}, section {section:x?}");
    });
}

/// At least so many questions notice a slip.
const ENOUGH: u32 = 2;

#[test]
fn every_slip_is_noticed() {
    let (mut noticed, mut questions) = ([0; SLIPS.len()], 0);
    for_each_question(|scene, right| {
        for ((_, slip), times) in SLIPS.iter().zip(&mut noticed) {
            *times += u32::from(slip.ask(scene) != right);
        }
        questions += 1;
    });
    println!("{} slips in {questions} questions", SLIPS.len());
    for ((name, _), times) in SLIPS.iter().zip(noticed) {
        println!("{times:>5} questions notice that {name}");
    }
    for ((name, _), times) in SLIPS.iter().zip(noticed) {
        assert!(times >= ENOUGH, "{times} questions notice that {name}");
    }
}
