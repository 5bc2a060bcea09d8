//! Which bytes of a section the request to ask one address names, for one question: no others may change the answer.
#![forbid(unsafe_code)]

use super::lookup::distance;
use super::{try_fields, try_header, Entry, Parts, ENTRY_BYTES, HEADER_BYTES};
use std::ops::Range;

/// Places in the section: of the header, of every entry that the halving rule compares, and where the function landed
/// on covers the PC, of its rows up to their first fault.
pub fn named_bytes(section: &[u8], address: u64, pc: u64) -> Vec<Range<usize>> {
    let header = 0..HEADER_BYTES.min(section.len());
    let mut named = vec![header];
    if let Ok(parts) = try_header(section) {
        if parts.sorted {
            let area_at = section.len() - parts.area.len();
            let (entries, rows) = parts.named(distance(address, pc));
            named.extend(entries.into_iter().map(|index| parts.table_at + ENTRY_BYTES * index).map(whole_entry));
            named.extend(rows.map(|rows| area_at + rows.start..area_at + rows.end));
        }
    }
    named
}

fn whole_entry(at: usize) -> Range<usize> {
    at..at + ENTRY_BYTES
}

impl Parts<'_> {
    // The entries compared, by their indexes, and the bytes of the row area.
    fn named(&self, d: i64) -> (Vec<usize>, Option<Range<usize>>) {
        let (mut low, mut high, mut compared) = (0, self.table.len(), Vec::new());
        while low < high {
            let middle = (low + high) / 2;
            compared.push(middle);
            if self.entry(middle).start <= d {
                low = middle + 1;
            } else {
                high = middle;
            }
        }
        let landed_on = low.checked_sub(1).map(|index| self.entry(index)).filter(|entry| entry.covers(d));
        (compared, landed_on.and_then(|entry| self.rows_named(&entry)))
    }

    // None where the entry's own fields are at fault: then no row is read. Of the first faulty row the start and the
    // info byte are taken, as far as they lie inside, though the request names it whole: what follows cannot undo the
    // fault, and the fewer are taken, the more a trial of the others says.
    fn rows_named(&self, entry: &Entry) -> Option<Range<usize>> {
        try_fields(self, entry).ok()?;
        let (first, width) = (entry.first_row as usize, entry.start_width());
        let (mut place, mut start_before) = (first, None);
        for _ in 0..entry.row_count {
            match self.row(place, width) {
                Ok(row) if start_before.is_none_or(|before| before < row.start) => {
                    (place, start_before) = (row.end, Some(row.start));
                }
                _ => return Some(first..self.area.len().min(place + width + 1)),
            }
        }
        Some(first..place)
    }
}

#[cfg(test)]
mod tests {
    use super::*;
    use crate::cases::S;

    const ADDRESS: u64 = 0x40_0000;

    fn named(section: &[u8], pc: u64) -> Vec<Range<usize>> {
        named_bytes(section, ADDRESS, pc)
    }

    #[test]
    fn the_bytes_of_s_are_named_by_what_is_asked() {
        assert_eq!(named(&S, 0x40_1000), [0..28, 48..68, 28..48, 68..75]);
        assert_eq!(named(&S, 0x40_1020), [0..28, 48..68, 28..48]);
        assert_eq!(named(&S, 0x40_1040), [0..28, 48..68, 75..78]);
        assert_eq!(named(&S, 0x40_1050), [0..28, 48..68]);
    }

    #[test]
    fn rows_are_named_up_to_their_first_fault() {
        let mut section = S;
        // The second row has offsets of size 3, the first one no offsets, then three, of 4 bytes each.
        section[72] = 0x64;
        assert_eq!(named(&section, 0x40_1000)[3], 68..73);
        section[69] = 0x01;
        assert_eq!(named(&section, 0x40_1000)[3], 68..70);
        // A row that starts at the last byte.
        section[56] = 9;
        assert_eq!(named(&section, 0x40_1040)[2], 77..78);
        // The first row offset is above the row bytes.
        section[56] = 11;
        assert_eq!(named(&section, 0x40_1040).len(), 2);
    }

    #[test]
    fn the_header_alone_is_named_where_it_decides() {
        let mut unsorted = S;
        unsorted[3] = 0;
        for (section, bytes) in [(&unsorted[..], 0..28), (&S[..77], 0..28), (&S[..20], 0..20), (&[], 0..0)] {
            assert_eq!(named(section, 0x40_1000), [bytes]);
        }
    }
}
