//! A listing: every function of an accepted section and below it each of its rows, once and in section order; and one
//! function by its index.
#![forbid(unsafe_code)]

use super::lookup::{offset_bytes, Checked};
use super::{try_header, Block, Entry, Parts, Refusal, Row};
use std::iter;

/// One line of a listing.
#[derive(Clone, Copy, Debug, PartialEq, Eq)]
pub enum Line {
    /// The start is the effective one, counted from the section's first byte.
    Function { index: u64, start: i64, size: u32, block: Block },
    /// The next row of the function whose line was the last.
    Row(Row),
}

/// Every line of a section, or its refusal.
pub fn listing(section: &[u8]) -> Result<Vec<Line>, Refusal> {
    Checked::open(section).map(|checked| checked.lines().collect())
}

impl Checked<'_> {
    /// The lines of a section that was checked once, each of them read when it is asked for.
    pub fn lines(&self) -> impl Iterator<Item = Line> + '_ {
        let parts = self.parts();
        (0..parts.table.len()).flat_map(|index| parts.lines_of(index))
    }
}

/// What an entry says of its function, also in a section that is not accepted.
#[derive(Clone, Copy, Debug, Default, PartialEq, Eq)]
pub struct FunctionAt {
    /// 0, or 1 to 8 where the header is refused.
    pub number: u64,
    /// There is such a function; everything below is 0 where there is none.
    pub known: bool,
    /// The effective start.
    pub start: i64,
    pub size: u64,
    /// How many rows the entry counts.
    pub rows: u64,
    pub repeated: bool,
    /// The size of the repeated blocks; 0 for a plain function.
    pub repeat: u64,
}

/// The function of an index, by its entry alone: of all checks only those of the header are made, 1 to 8.
pub fn function_at(section: &[u8], index: u64) -> FunctionAt {
    match try_header(section) {
        Ok(parts) => parts.function_at(index),
        Err(number) => FunctionAt { number, ..FunctionAt::default() },
    }
}

impl Parts<'_> {
    fn lines_of(&self, index: usize) -> impl Iterator<Item = Line> + '_ {
        let entry = self.entry(index);
        let function =
            Line::Function { index: index as u64, start: entry.start, size: entry.size, block: entry.block() };
        iter::once(function).chain(self.rows(&entry).map(Line::Row))
    }

    /// The rows of an entry of an accepted section.
    pub(super) fn rows(&self, entry: &Entry) -> Rows<'_> {
        Rows {
            parts: self,
            place: entry.first_row as usize,
            start_width: entry.start_width(),
            left: entry.row_count as usize,
        }
    }

    fn function_at(&self, index: u64) -> FunctionAt {
        // An index that no usize holds is above that of every entry.
        let index = usize::try_from(index).ok().filter(|&index| index < self.table.len());
        let Some(index) = index else { return FunctionAt::default() };
        let entry = self.entry(index);
        let repeat = if entry.is_repeated() { entry.repeat } else { 0 };
        FunctionAt {
            number: 0,
            known: true,
            start: entry.start,
            size: entry.size.into(),
            rows: entry.row_count.into(),
            repeated: entry.is_repeated(),
            repeat: repeat.into(),
        }
    }
}

/// Steps through the rows of one function.
pub(super) struct Rows<'a> {
    parts: &'a Parts<'a>,
    /// Where the next row begins in the row area, if one is left.
    place: usize,
    start_width: usize,
    left: usize,
}

impl Iterator for Rows<'_> {
    type Item = Row;

    // Nothing is tried again: every row of an accepted section lies inside the row area.
    fn next(&mut self) -> Option<Row> {
        self.left = self.left.checked_sub(1)?;
        let area = self.parts.area;
        let info_at = self.place + self.start_width;
        let start = self.parts.order.unsigned(&area[self.place..info_at]);
        let (info, offsets) = (area[info_at], &area[info_at + 1..]);
        self.place = info_at + 1 + offset_bytes(info);
        Some(self.parts.meaning(start, info, offsets))
    }

    fn size_hint(&self) -> (usize, Option<usize>) {
        (self.left, Some(self.left))
    }
}

#[cfg(test)]
mod tests {
    use super::*;
    use crate::cases::{self, S};
    use crate::reader::{functions, Base, Place, Verdict};

    const ENTERED: Row =
        Row { start: 0, base: Base::Sp, cfa_offset: 8, ra: Place::AtOffset(-8), fp: Place::Register, signed: false };
    const FRAMED: Row = Row { start: 4, base: Base::Fp, cfa_offset: 16, fp: Place::AtOffset(-16), ..ENTERED };

    #[test]
    fn s_is_listed_function_by_function() {
        let function = |index, start, size| Line::Function { index, start, size, block: Block::Plain };
        let first = [function(0, 0x1000, 0x20), Line::Row(ENTERED), Line::Row(FRAMED)];
        let second = [function(1, 0x1040, 0x10), Line::Row(ENTERED)];
        assert_eq!(listing(&S), Ok([&first[..], &second].concat()));
    }

    #[test]
    fn a_refused_section_has_no_lines() {
        assert_eq!(listing(&S[..77]), Err(Refusal { number: 8, index: 0 }));
        let mut twice = S;
        twice[71] = 0;
        assert_eq!(listing(&twice), Err(Refusal { number: 13, index: 0 }));
    }

    #[test]
    fn the_rows_of_a_function_end_and_stay_at_their_end() {
        let checked = Checked::open(&S).unwrap_or_else(|refusal| panic!("S is refused: {refusal:?}"));
        let parts = checked.parts();
        let mut rows = parts.rows(&parts.entry(0));
        assert_eq!([rows.next(), rows.next()], [Some(ENTERED), Some(FRAMED)]);
        assert_eq!([rows.next(), rows.next()], [None, None]);
    }

    #[test]
    fn the_lines_of_every_case_are_its_functions() {
        for case in cases::all() {
            match case.expected {
                Verdict::Refused { number, index } => {
                    assert_eq!(listing(&case.section), Err(Refusal { number, index }), "{}", case.name);
                }
                Verdict::Accepted => assert_eq!(listing(&case.section), Ok(flattened(&case.section)), "{}", case.name),
            }
        }
    }

    fn flattened(section: &[u8]) -> Vec<Line> {
        let mut lines = Vec::new();
        for (index, function) in (0..).zip(functions(section)) {
            let (start, size, block) = (function.start, function.size, function.block);
            lines.push(Line::Function { index, start, size, block });
            lines.extend(function.rows.into_iter().map(Line::Row));
        }
        lines
    }

    #[test]
    fn the_functions_of_s_are_known_by_their_indexes() {
        let plain = FunctionAt { known: true, ..FunctionAt::default() };
        assert_eq!(function_at(&S, 0), FunctionAt { start: 0x1000, size: 0x20, rows: 2, ..plain });
        assert_eq!(function_at(&S, 1), FunctionAt { start: 0x1040, size: 0x10, rows: 1, ..plain });
        for index in [2, 3, 1 << 32, u64::MAX] {
            assert_eq!(function_at(&S, index), FunctionAt::default(), "{index}");
        }
    }

    #[test]
    fn a_refused_header_has_no_functions() {
        let mut version_1 = S;
        version_1[2] = 1;
        for (section, number) in [(&S[..27], 1), (&S[..77], 8), (&version_1, 4)] {
            assert_eq!(function_at(section, 0), FunctionAt { number, ..FunctionAt::default() });
        }
    }

    // Both bits that rule 9 forbids, a repeat size of 0, rows outside the row bytes: of no concern to the entry itself.
    #[test]
    fn an_entry_is_told_as_it_stands() {
        let mut section = S;
        (section[31], section[36], section[44]) = (0xff, 0xff, 0xd0);
        let start = 0x1000 - (1 << 24);
        let told = FunctionAt { known: true, start, size: 0x20, rows: 2, repeated: true, ..FunctionAt::default() };
        assert_eq!(listing(&section), Err(Refusal { number: 9, index: 0 }));
        assert_eq!(function_at(&section, 0), told);
        section[45] = 0xff;
        assert_eq!(function_at(&section, 0), FunctionAt { repeat: 255, ..told });
        // A plain function's repeat size is not told.
        section[44] = 0xc0;
        assert_eq!(function_at(&section, 0), FunctionAt { repeated: false, ..told });
    }

    #[test]
    fn a_relative_start_counts_from_its_field() {
        let mut section = S;
        section[3] = 4;
        let starts = [0, 1].map(|index| function_at(&section, index).start);
        assert_eq!(starts, [0x1000 + 28, 0x1040 + 48]);
    }
}
