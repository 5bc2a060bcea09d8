//! Rows one at a time, from any bytes and from any place: where the rows of a function begin, and one row with the place
//! behind it. Written from the words in which they were asked for, apart from the rows of a listing.
#![forbid(unsafe_code)]

use super::lookup::Checked;
use super::{try_header, Base, Order, Place, Row};

/// Where a reader of rows stands.
#[derive(Clone, Copy, Debug, PartialEq, Eq)]
pub struct RowsAt {
    /// The header's code; any number but 1 and 2 is AMD64.
    pub abi: u64,
    pub row_type: u64,
    /// The place of the next row, in bytes from the section's first.
    pub at: u64,
    pub left: u64,
}

/// A row, or none, and where the reader then stands.
#[derive(Clone, Copy, Debug, PartialEq, Eq)]
pub struct NextRow {
    pub row: Option<Row>,
    pub rest: RowsAt,
}

const AMD64: u64 = 3;

/// Where none is left: the header is refused, or there is no such function.
const NOWHERE: RowsAt = RowsAt { abi: AMD64, row_type: 0, at: 0, left: 0 };

/// Where the rows of a function begin, and how many there are, as its entry stands: of all checks only those of the
/// header are made, 1 to 8.
pub fn rows_of(section: &[u8], index: u64) -> RowsAt {
    let Ok(parts) = try_header(section) else { return NOWHERE };
    let index = usize::try_from(index).ok().filter(|&index| index < parts.table.len());
    let Some(index) = index else { return NOWHERE };
    let entry = parts.entry(index);
    let area = (section.len() - parts.area.len()) as u64;
    RowsAt {
        abi: section[4].into(),
        row_type: entry.row_type().into(),
        at: area + u64::from(entry.first_row),
        left: entry.row_count.into(),
    }
}

/// The next row, or that there are no more.
pub fn next_row(section: &[u8], place: RowsAt) -> NextRow {
    let abi = if [1, 2].contains(&place.abi) { place.abi } else { AMD64 };
    let stands = RowsAt { abi, ..place };
    match whole_row(section, stands) {
        Some((row, end)) => NextRow { row: Some(row), rest: RowsAt { at: end, left: place.left - 1, ..stands } },
        None => NextRow { row: None, rest: RowsAt { left: 0, ..stands } },
    }
}

// The row at a place and where it ends, if a whole one lies there.
fn whole_row(section: &[u8], place: RowsAt) -> Option<(Row, u64)> {
    if place.left == 0 || place.row_type > 2 {
        return None;
    }
    let behind = section.get(usize::try_from(place.at).ok()?..)?;
    let (start, behind) = behind.split_at_checked(1 << place.row_type)?;
    let (&info, behind) = behind.split_first()?;
    let (size_code, count) = (info >> 5 & 0x3, usize::from(info >> 1 & 0xf));
    if size_code == 3 || count == 0 {
        return None;
    }
    let width = 1 << size_code;
    let (offsets, behind) = behind.split_at_checked(count * width)?;
    let row = meaning(place.abi, start, info, &offsets.chunks(width).collect::<Vec<_>>());
    Some((row, (section.len() - behind.len()) as u64))
}

fn meaning(abi: u64, start: &[u8], info: u8, offsets: &[&[u8]]) -> Row {
    let order = if abi == 1 { Order::Big } else { Order::Little };
    let place =
        |number: usize| offsets.get(number).map_or(Place::Register, |field| Place::AtOffset(order.signed(field)));
    let (ra, fp) = if abi == AMD64 { (Place::AtOffset(-8), place(1)) } else { (place(1), place(2)) };
    Row {
        start: order.unsigned(start),
        base: if info & 1 == 0 { Base::Fp } else { Base::Sp },
        cfa_offset: order.signed(offsets[0]),
        ra,
        fp,
        signed: abi != AMD64 && info & 0x80 != 0,
    }
}

impl Checked<'_> {
    /// The rows of a function as the listing has them, none where there is no such function.
    pub fn rows_listed(&self, index: u64) -> impl Iterator<Item = Row> + '_ {
        let parts = self.parts();
        let index = usize::try_from(index).ok().filter(|&index| index < parts.table.len());
        index.into_iter().flat_map(|index| parts.rows(&parts.entry(index)))
    }
}

#[cfg(test)]
mod tests {
    use super::*;
    use crate::cases::{self, S};
    use crate::reader::{functions, Verdict};
    use std::iter;

    const ENTERED: Row =
        Row { start: 0, base: Base::Sp, cfa_offset: 8, ra: Place::AtOffset(-8), fp: Place::Register, signed: false };
    const FRAMED: Row = Row { start: 4, base: Base::Fp, cfa_offset: 16, fp: Place::AtOffset(-16), ..ENTERED };

    fn place(at: u64, left: u64) -> RowsAt {
        RowsAt { abi: 3, row_type: 0, at, left }
    }

    fn all(section: &[u8], index: u64) -> Vec<Row> {
        let mut rest = rows_of(section, index);
        let next = || {
            let next = next_row(section, rest);
            rest = next.rest;
            next.row
        };
        iter::from_fn(next).collect()
    }

    #[test]
    fn the_rows_of_s_come_once_each() {
        assert_eq!(rows_of(&S, 0), place(68, 2));
        assert_eq!(next_row(&S, place(68, 2)), NextRow { row: Some(ENTERED), rest: place(71, 1) });
        assert_eq!(next_row(&S, place(71, 1)), NextRow { row: Some(FRAMED), rest: place(75, 0) });
        assert_eq!(next_row(&S, place(75, 0)), NextRow { row: None, rest: place(75, 0) });
        assert_eq!((rows_of(&S, 1), all(&S, 1)), (place(75, 1), vec![ENTERED]));
        assert_eq!([rows_of(&S, 2), rows_of(&S, u64::MAX), rows_of(&S[..77], 0)], [NOWHERE; 3]);
    }

    #[test]
    fn the_rows_of_every_accepted_case_are_those_of_its_functions() {
        for case in cases::all().into_iter().filter(|case| case.expected == Verdict::Accepted) {
            let checked = Checked::open(&case.section).unwrap_or_else(|refusal| panic!("{}: {refusal:?}", case.name));
            for (index, function) in (0..).zip(functions(&case.section)) {
                assert_eq!(all(&case.section, index), function.rows, "{}, {index}", case.name);
                assert_eq!(checked.rows_listed(index).collect::<Vec<_>>(), function.rows, "{}, {index}", case.name);
            }
        }
    }

    // A row too long for the section, no offsets, a size that there is not, a row type that there is not, and places
    // outside; and the same row by the other ABIs.
    #[test]
    fn any_place_is_tried() {
        let none = |place: RowsAt| NextRow { row: None, rest: RowsAt { left: 0, ..place } };
        let mut section = S;
        for info in [0x1e, 0x00, 0x64] {
            section[72] = info;
            assert_eq!(next_row(&section, place(71, 5)), none(place(71, 5)), "{info:x}");
        }
        for row_type in [3, 1 << 32, u64::MAX] {
            let place = RowsAt { row_type, ..place(71, 5) };
            assert_eq!(next_row(&S, place), none(place));
        }
        for at in [76, 77, 78, 79, 1 << 32, u64::MAX] {
            assert_eq!(next_row(&S, place(at, 5)), none(place(at, 5)), "{at}");
        }
        let little = next_row(&S, RowsAt { abi: 2, ..place(71, 5) });
        let by_aarch64 = Row { ra: Place::AtOffset(-16), fp: Place::Register, ..FRAMED };
        assert_eq!(little, NextRow { row: Some(by_aarch64), rest: RowsAt { abi: 2, ..place(75, 4) } });
        assert_eq!(next_row(&S, RowsAt { abi: 7, ..place(71, 5) }), next_row(&S, place(71, 5)));
    }
}
