//! The rows of a function, one at a time.

use crate::calls;
use crate::look::Row;
use core::iter::FusedIterator;

/// The rows of the function with an index, in order, each read when it is asked for; none where the header breaks a rule
/// or there is no such function, which [`function_at`](crate::function_at) tells apart.
///
/// Rules 1 to 8 are tried and one entry is read, and then one row at a time, so that nothing of it takes longer in a
/// larger section. Where [`check`](crate::check) accepts the section, every row of the function comes once. Rows are told
/// as they stand also where it does not: there they end at the first that does not lie whole in the section, or whose
/// info names no size of offsets or no offset.
///
/// ```
/// use suntimpani::example::SECTION_S;
/// use suntimpani::{rows, Base, Place, Row};
///
/// let mut first = rows(&SECTION_S, 0);
/// let entered = Row { start: 0, base: Base::Sp, cfa: 8, ra: Place::AtOffset(-8), fp: Place::Register, signed: false };
/// assert_eq!(first.next(), Some(entered));
/// assert_eq!(first.next(), Some(Row { start: 4, base: Base::Fp, cfa: 16, fp: Place::AtOffset(-16), ..entered }));
/// assert_eq!(first.next(), None);
///
/// assert_eq!(rows(&SECTION_S, 1).collect::<Vec<_>>(), [entered]);
/// assert_eq!(rows(&SECTION_S, 2).next(), None);
/// ```
pub fn rows(section: &[u8], index: u64) -> Rows<'_> {
    Rows { section, rest: calls::rows_of(section, index) }
}

/// The rows of a function from one of them on: what [`rows`](rows()) gives.
#[derive(Clone, Debug)]
pub struct Rows<'section> {
    section: &'section [u8],
    rest: calls::Rows,
}

impl Iterator for Rows<'_> {
    type Item = Row;

    fn next(&mut self) -> Option<Row> {
        let said = calls::next_row(self.section, self.rest);
        self.rest = said.rest;
        match said.more {
            0 => None,
            1 => Some(Row::of(&said.told)),
            // By the library's contract.
            other => unreachable!("{other} is no bit"),
        }
    }
}

// By the library's contract: where there are no more, it says so again.
impl FusedIterator for Rows<'_> {}
