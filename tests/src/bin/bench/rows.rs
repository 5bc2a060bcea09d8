//! One function of many rows, asked at its last row and at random ones: what it costs to pass a row. Beside the library
//! and the reader, which pass rows by their length, stand a reader that decodes each and, where there is one, libsframe.

use crate::table::{self, RowsLine};
use crate::times::{assert_alike_by_libsframe, discard, place_of};
use std::hint::black_box;
use suntimpani_tests::large::{Long, ROW_STEP};
use suntimpani_tests::libsframe::Libsframe;
use suntimpani_tests::measured::{by_decoding, by_library, by_reader, Measured};
use suntimpani_tests::reader::{functions, Checked, Outcome};
use suntimpani_tests::stream::Random;
use suntimpani_tests::timing::{turn_about, Way};
use suntimpani_tests::ADDRESS;

const SEED: u64 = 20_260_104;
const ROUNDS: usize = 15;

const ROWS: [u32; 4] = [100, 1_000, 10_000, 1_000_000];

/// The starts that each row type has room for.
const STARTS: [u32; 3] = [1 << 8, 1 << 16, u32::MAX];

/// Offsets of 1 and of 4 bytes.
const SIZE_CODES: [u8; 2] = [0, 2];

/// About so many rows are passed between two looks at the clock, by at least so many finds.
const PASSED: u32 = 1_000_000;
const FEWEST: u32 = 4;

/// Which rows are asked for.
#[derive(Clone, Copy)]
enum Asked {
    Last,
    Random,
}

impl Asked {
    const ALL: [Asked; 2] = [Asked::Last, Asked::Random];

    fn name(self) -> &'static str {
        match self {
            Asked::Last => "last row",
            Asked::Random => "random rows",
        }
    }
}

pub fn print_lines(libsframe: Option<&Libsframe>) {
    table::print_rows_head();
    for long in all() {
        let section = long.section().bytes();
        Asked::ALL.iter().for_each(|asked| line(&long, &section, *asked, libsframe).print());
    }
}

// Rows that are written alike, in every number that the width of their starts allows, and last some of two lengths.
fn all() -> Vec<Long> {
    let mut all = Vec::new();
    for (row_type, starts) in (0..).zip(STARTS) {
        for rows in ROWS.into_iter().filter(|rows| ROW_STEP * (rows - 1) < starts) {
            all.extend(SIZE_CODES.map(|size_code| Long { rows, row_type, size_code, alike: true }));
        }
    }
    all.extend([1_000, 10_000].map(|rows| Long { rows, row_type: 1, size_code: 0, alike: false }));
    all
}

fn line(long: &Long, section: &[u8], asked: Asked, libsframe: Option<&Libsframe>) -> RowsLine {
    let pcs = &pcs_of(section, long.rows, asked)[..];
    let expected = by_reader(section, ADDRESS, pcs);
    assert_eq!((expected, expected), (by_library(section, ADDRESS, pcs), by_decoding(section, ADDRESS, pcs)));
    let finds = |find: fn(&[u8], u64, &[u64]) -> Measured, pcs| {
        move || discard(find(black_box(section), ADDRESS, black_box(pcs)))
    };
    let none: &[u64] = &[];
    let (mut library, mut library_none) = (finds(by_library, pcs), finds(by_library, none));
    let (mut reader, mut reader_none) = (finds(by_reader, pcs), finds(by_reader, none));
    let (mut decoding, mut decoding_none) = (finds(by_decoding, pcs), finds(by_decoding, none));
    let decoded = libsframe.and_then(|libsframe| libsframe.decode(section));
    let mut other = || {
        let decoded = decoded.as_ref().expect("libsframe decodes the section");
        pcs.iter().for_each(|pc| discard(decoded.find(place_of(black_box(*pc)))));
    };
    let mut ways: Vec<Way> =
        vec![&mut library, &mut library_none, &mut reader, &mut reader_none, &mut decoding, &mut decoding_none];
    if let Some(decoded) = &decoded {
        assert_alike_by_libsframe(&format!("{long:?}"), section, pcs, decoded);
        ways.push(&mut other);
    }
    let mut times = turn_about(ROUNDS, &mut ways);
    let others = times.split_off(6);
    let found = times.chunks(2).map(|pair| pair[0].above(&pair[1])).chain(others);
    let of_a_find = found.map(|times| times.divided_by(pcs.len())).collect();
    RowsLine::new(long, asked.name(), of_a_find, passed(section, pcs))
}

// PCs in the last row, or all over the function.
fn pcs_of(section: &[u8], rows: u32, asked: Asked) -> Vec<u64> {
    let start = functions(section)[0].start;
    let mut random = Random::new(SEED);
    let place = |_| match asked {
        Asked::Last => ROW_STEP * rows - 1,
        Asked::Random => random.below(u64::from(ROW_STEP * rows)) as u32,
    };
    let places = (0..(PASSED / rows).max(FEWEST)).map(place);
    places.map(|place| ADDRESS.wrapping_add_signed(start + i64::from(place))).collect()
}

// How many rows a find passes, the one found among them, in the middle of all.
fn passed(section: &[u8], pcs: &[u64]) -> f64 {
    let Ok(checked) = Checked::open(section) else { panic!("the section is accepted") };
    let passed = |pc: &u64| match checked.find(ADDRESS, *pc).outcome {
        Outcome::Found { number, .. } => number + 1,
        other => panic!("no row is found: {other:?}"),
    };
    pcs.iter().map(passed).sum::<u64>() as f64 / pcs.len() as f64
}
