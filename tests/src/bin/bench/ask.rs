//! One address of a section that nobody checked: the library's ask beside the reader's and beside libsframe's find in a
//! section that it decoded before, and the lookups that check the whole section for the same answer.

use crate::sections::Timed;
use crate::table::Line;
use crate::times::{assert_alike_by_libsframe, discard, is_sorted, line, place_of};
use std::hint::black_box;
use suntimpani_tests::library::{self, LIBRARY};
use suntimpani_tests::libsframe::Libsframe;
use suntimpani_tests::reader::{self, Checked};
use suntimpani_tests::timing::{turn_about_again, Way};
use suntimpani_tests::ADDRESS;

const ROUNDS: usize = 21;

/// The lookups between two looks at the clock check about so many bytes, and are at most so many.
const CHECKED: usize = 4_000_000;
const MOST_LOOKUPS: usize = 1_000;

/// An ask at PCs all over the functions of a sorted section, and a lookup at the first of them.
pub fn of_ask(timed: &Timed, libsframe: Option<&Libsframe>) -> Vec<Line> {
    let (section, pcs) = (&timed.bytes[..], &timed.pcs[..]);
    if pcs.is_empty() || !is_sorted(section) {
        return Vec::new();
    }
    assert_alike(&timed.name, section, pcs);
    let few = &pcs[..(CHECKED / section.len()).clamp(1, MOST_LOOKUPS)];
    let mut library = || pcs.iter().for_each(|pc| discard(LIBRARY.ask(black_box(section), ADDRESS, *pc)));
    let mut reader = || pcs.iter().for_each(|pc| discard(reader::ask(black_box(section), ADDRESS, *pc)));
    let mut library_lookup = || few.iter().for_each(|pc| discard(LIBRARY.lookup(black_box(section), ADDRESS, *pc)));
    let mut reader_lookup = || few.iter().for_each(|pc| discard(reader::lookup(black_box(section), ADDRESS, *pc)));
    let decoded = libsframe.and_then(|libsframe| libsframe.decode(section));
    let mut other = || {
        let decoded = decoded.as_ref().expect("libsframe decodes the section");
        pcs.iter().for_each(|pc| discard(decoded.find(place_of(black_box(*pc)))));
    };
    let mut ways: Vec<Way> = vec![&mut library, &mut reader, &mut library_lookup, &mut reader_lookup];
    if let Some(decoded) = &decoded {
        assert_alike_by_libsframe(&timed.name, section, pcs, decoded);
        ways.push(&mut other);
    }
    let mut asks = turn_about_again(ROUNDS, &mut ways);
    let lookups = asks.drain(2..4).map(|times| times.divided_by(few.len())).collect();
    let asks = asks.iter().map(|times| times.divided_by(pcs.len())).collect();
    vec![line("ask", timed, asks), line("lookup", timed, lookups)]
}

/// Every ask of an accepted section is answered alike by both sides, and as if the whole section were checked.
pub fn assert_alike(name: &str, section: &[u8], pcs: &[u64]) {
    let Ok(checked) = Checked::open(section) else { panic!("{name} is accepted") };
    for &pc in pcs {
        let asked = LIBRARY.ask(section, ADDRESS, pc);
        assert_eq!(asked, library::Answer::of_asked(&reader::ask(section, ADDRESS, pc)), "{name}, PC {pc:x}");
        assert_eq!(asked, library::Answer::of(&checked.find(ADDRESS, pc)), "{name}, PC {pc:x}");
    }
}
