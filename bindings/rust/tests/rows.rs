//! The rows of a function, one at a time, through the safe surface: in sections accepted and refused.

use suntimpani::example::SECTION_S as S;
use suntimpani::{check, functions, lookup, rows};
use suntimpani::{Base, Outcome, Place, Row, Verdict};

const ENTERED: Row =
    Row { start: 0, base: Base::Sp, cfa: 8, ra: Place::AtOffset(-8), fp: Place::Register, signed: false };
const FRAMED: Row = Row { start: 4, base: Base::Fp, cfa: 16, fp: Place::AtOffset(-16), ..ENTERED };

/// AArch64, little-endian: one function whose row at 8 leaves RA at CFA - 24 and FP at CFA - 32, signed.
const ON_AARCH64: [u8; 59] = [
    0xe2, 0xde, 0x02, 0x01, 0x02, 0x00, 0x00, 0x00, 0x01, 0x00, 0x00, 0x00, 0x03, 0x00, 0x00, 0x00, 0x0b, 0x00, 0x00,
    0x00, 0x00, 0x00, 0x00, 0x00, 0x14, 0x00, 0x00, 0x00, 0x00, 0x10, 0x00, 0x00, 0x10, 0x00, 0x00, 0x00, 0x00, 0x00,
    0x00, 0x00, 0x03, 0x00, 0x00, 0x00, 0x00, 0x00, 0x00, 0x00, 0x00, 0x03, 0x00, 0x04, 0x03, 0x10, 0x08, 0x86, 0x20,
    0xe8, 0xe0,
];

/// S with another byte, which a check refuses with a number.
fn refused(at: usize, byte: u8, number: u64) -> [u8; 78] {
    let mut section = S;
    section[at] = byte;
    assert!(matches!(check(&section), Verdict::Refused(unsound) if unsound.number() == number), "{number}");
    section
}

#[test]
fn the_rows_of_s_come_once_each() {
    let mut first = rows(&S, 0);
    let again = first.clone();
    assert_eq!([first.next(), first.next(), first.next(), first.next()], [Some(ENTERED), Some(FRAMED), None, None]);
    assert_eq!(again.collect::<Vec<_>>(), [ENTERED, FRAMED]);
    assert_eq!(rows(&S, 1).collect::<Vec<_>>(), [ENTERED]);
    let counts: Vec<u64> = functions(&S).expect("the header is sound").map(|function| function.rows).collect();
    assert_eq!(counts, [0, 1].map(|index| rows(&S, index).count() as u64));
}

#[test]
fn a_lookup_finds_one_of_them() {
    let Outcome::Found { function, number, row } = lookup(&S, 0x40_0000, 0x40_1010).outcome else { panic!("a row") };
    assert_eq!(rows(&S, function).nth(number as usize), Some(row));
}

#[test]
fn there_are_none_without_a_function() {
    for index in [2, 3, 1 << 32, u64::MAX] {
        assert_eq!(rows(&S, index).next(), None, "{index}");
    }
    for section in [&[][..], &S[..27], &S[..77], &refused(2, 1, 4)] {
        assert_eq!(rows(section, 0).next(), None, "{section:?}");
    }
}

#[test]
fn rows_on_aarch64_are_told() {
    assert_eq!(check(&ON_AARCH64), Verdict::Accepted);
    let leaf = Row { start: 0, cfa: 0, ra: Place::Register, ..ENTERED };
    let (ra, fp) = (Place::AtOffset(-24), Place::AtOffset(-32));
    let framed = Row { start: 8, base: Base::Fp, cfa: 32, ra, fp, signed: true };
    assert_eq!(rows(&ON_AARCH64, 0).collect::<Vec<_>>(), [leaf, Row { start: 4, cfa: 16, ..leaf }, framed]);
}

#[test]
fn rows_of_a_refused_section_are_told_as_they_stand() {
    let all = |section: &[u8]| rows(section, 0).collect::<Vec<_>>();
    // Outside the section, in no order, and more of them than there are bytes.
    assert_eq!(all(&refused(39, 0xff, 11)), []);
    assert_eq!(all(&refused(71, 0, 13)), [ENTERED, Row { start: 0, ..FRAMED }]);
    assert_eq!(all(&refused(43, 0xff, 13)), [ENTERED, FRAMED, ENTERED]);
    // No offset, a size that there is not, and an offset more than AMD64 has.
    assert_eq!(all(&refused(72, 0x00, 12)), [ENTERED]);
    assert_eq!(all(&refused(72, 0x64, 12)), [ENTERED]);
    assert_eq!(all(&refused(72, 0x06, 12)), [ENTERED, FRAMED]);
    // Row type 3.
    assert_eq!(all(&refused(44, 0x03, 9)), []);
}
