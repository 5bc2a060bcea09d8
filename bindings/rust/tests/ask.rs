//! One address of a section that is not checked whole, through the safe surface: in sections accepted and refused.

use suntimpani::example::SECTION_S as S;
use suntimpani::{ask, check, lookup};
use suntimpani::{Answer, AskAnswer, Base, Outcome, Place, Row, Rule, Unsound, Verdict};

const ADDRESS: u64 = 0x40_0000;

const ENTERED: Row =
    Row { start: 0, base: Base::Sp, cfa: 8, ra: Place::AtOffset(-8), fp: Place::Register, signed: false };
const FRAMED: Row = Row { start: 4, base: Base::Fp, cfa: 16, fp: Place::AtOffset(-16), ..ENTERED };

/// Both rows of S's first function, the one of its second, and no function.
const FIRST: AskAnswer = AskAnswer::Found { function: 0, number: 0, row: ENTERED, compared: 2 };
const FIRST_FRAMED: AskAnswer = AskAnswer::Found { function: 0, number: 1, row: FRAMED, compared: 2 };
const SECOND: AskAnswer = AskAnswer::Found { function: 1, number: 0, row: ENTERED, compared: 1 };
const NOWHERE: AskAnswer = AskAnswer::NoFunction { compared: 2 };

/// S with other bytes at some places.
fn changed(bytes: &[(usize, u8)]) -> [u8; 78] {
    let mut section = S;
    bytes.iter().for_each(|&(at, byte)| section[at] = byte);
    section
}

/// What a lookup answers in a sorted section that is accepted, as one who asks is told it.
fn as_asked(Answer { outcome, compared }: Answer) -> AskAnswer {
    match outcome {
        Outcome::Found { function, number, row } => AskAnswer::Found { function, number, row, compared },
        Outcome::NoFunction => AskAnswer::NoFunction { compared },
        Outcome::NoRow { function } => AskAnswer::NoRow { function, compared },
        other => panic!("{other:?} is no answer of such a section"),
    }
}

#[test]
fn k4_to_k7() {
    let asked = |pc| ask(&S, ADDRESS, pc);
    assert_eq!(asked(0x40_1003), FIRST);
    assert_eq!([0x40_1004, 0x40_101f].map(asked), [FIRST_FRAMED; 2]);
    assert_eq!([0x40_0fff, 0x40_1020, 0x40_103f].map(asked), [NOWHERE; 3]);
    assert_eq!(asked(0x40_1040), SECOND);
}

#[test]
fn in_an_accepted_sorted_section_it_is_a_lookup() {
    // A late first row, repeated blocks, relative starts.
    let late = changed(&[(36, 3), (40, 1), (12, 2)]);
    assert_eq!(ask(&late, ADDRESS, 0x40_1003), AskAnswer::NoRow { function: 0, compared: 2 });
    for section in [S, late, changed(&[(44, 0x10), (45, 16)]), changed(&[(3, 5)])] {
        assert_eq!(check(&section), Verdict::Accepted);
        let top = 0_u64.wrapping_sub(0x1020);
        for (address, from) in [(ADDRESS, 0x40_0ff0_u64), (top, u64::MAX - 0x2f)] {
            for pc in (0..0x90).map(|on| from.wrapping_add(on)) {
                assert_eq!(ask(&section, address, pc), as_asked(lookup(&section, address, pc)), "{pc:x}");
            }
        }
    }
}

#[test]
fn a_header_is_refused_as_by_a_check() {
    let refused = |section: &[u8], rule| {
        let unsound = Unsound { rule, index: 0 };
        assert_eq!(check(section), Verdict::Refused(unsound));
        assert_eq!(ask(section, ADDRESS, 0x40_1003), AskAnswer::Unsound(unsound));
    };
    refused(&[], Rule::Short);
    refused(&S[..27], Rule::Short);
    refused(&vec![0; 16_777_217], Rule::Long);
    refused(&changed(&[(0, 0)]), Rule::Magic);
    refused(&changed(&[(2, 1)]), Rule::Version);
    refused(&changed(&[(3, 8)]), Rule::Flags);
    refused(&changed(&[(4, 1)]), Rule::Abi);
    refused(&changed(&[(6, 0)]), Rule::Fixed);
    refused(&S[..77], Rule::Sizes);
    // Before it is seen that the section is not sorted.
    refused(&changed(&[(3, 0)])[..77], Rule::Sizes);
}

#[test]
fn a_section_that_is_not_sorted_cannot_be_asked() {
    for flags in [0, 2, 4, 6] {
        assert_eq!(ask(&changed(&[(3, flags)]), ADDRESS, 0x40_1003), AskAnswer::Unsorted, "{flags}");
    }
    // K9, where two functions cover the PC; and a function that is damaged.
    assert_eq!(ask(&changed(&[(3, 0), (48, 0x1f)]), ADDRESS, 0x40_101f), AskAnswer::Unsorted);
    assert_eq!(ask(&changed(&[(3, 0), (72, 0)]), ADDRESS, 0x40_1003), AskAnswer::Unsorted);
}

#[test]
fn a_damaged_function_is_told_where_it_covers() {
    let damaged = |at, byte, rule| {
        let section = changed(&[(at, byte)]);
        assert_eq!(check(&section), Verdict::Refused(Unsound { rule, index: 0 }));
        let asked = |pc| ask(&section, ADDRESS, pc);
        assert_eq!([0x40_1000, 0x40_101f].map(asked), [AskAnswer::Damaged { function: 0, compared: 2 }; 2], "{rule}");
        assert_eq!([0x40_0fff, 0x40_1020].map(asked), [NOWHERE; 2], "{rule}");
        assert_eq!(asked(0x40_1040), SECOND, "{rule}");
    };
    damaged(44, 0xcf, Rule::EntryInfo);
    damaged(44, 0x10, Rule::RepeatSize);
    damaged(39, 0xff, Rule::RowsInside);
    damaged(69, 0x00, Rule::RowInfo);
    damaged(72, 0x64, Rule::RowInfo);
    damaged(71, 0x00, Rule::RowsRising);
}

#[test]
fn what_is_wrong_elsewhere_is_not_seen() {
    // K8: both functions cover the PC, and the second is landed on.
    let overlapping = changed(&[(48, 0x1f)]);
    assert_eq!(check(&overlapping), Verdict::Refused(Unsound { rule: Rule::Sorted, index: 1 }));
    assert_eq!([0x40_101e, 0x40_101f].map(|pc| ask(&overlapping, ADDRESS, pc)), [FIRST_FRAMED, SECOND]);
    // The first function lies behind the second, and is not landed on.
    let behind = changed(&[(28, 0x80)]);
    assert_eq!(check(&behind), Verdict::Refused(Unsound { rule: Rule::Sorted, index: 1 }));
    assert_eq!(ask(&behind, ADDRESS, 0x40_1084), AskAnswer::NoFunction { compared: 1 });
    // The sum of the rows, and a row of the second function.
    for (at, byte, rule) in [(12, 4, Rule::RowSum), (76, 0, Rule::RowInfo)] {
        let section = changed(&[(at, byte)]);
        assert!(matches!(check(&section), Verdict::Refused(unsound) if unsound.rule == rule), "{rule}");
        assert_eq!(ask(&section, ADDRESS, 0x40_1003), FIRST, "{rule}");
    }
}

#[test]
fn bytes_that_are_not_read_may_be_any() {
    let mut of_first = S;
    of_first[28..48].fill(0xff);
    of_first[68..75].fill(0xff);
    assert_eq!(ask(&of_first, ADDRESS, 0x40_1040), SECOND);
    let mut of_rows = S;
    of_rows[68..].fill(0xff);
    assert_eq!(ask(&of_rows, ADDRESS, 0x40_1020), NOWHERE);
}

/// What the program says of the same in its first line, behind `found: ` or `refused: `.
#[test]
fn every_answer_has_its_number_and_its_words() {
    let says =
        |answer: AskAnswer, number, words: &str| assert_eq!((answer.number(), &*answer.to_string()), (number, words));
    says(FIRST_FRAMED, 0, "function 0, row 1, which starts at 4");
    let unsound = Unsound { rule: Rule::Sizes, index: 0 };
    says(AskAnswer::Unsound(unsound), 8, "8, the function table, the row area and the length do not fit together");
    says(NOWHERE, 21, "21, no function that covers the PC was landed on");
    let no_row = AskAnswer::NoRow { function: 3, compared: 2 };
    says(no_row, 23, "23, no row of the function starts at or below the PC, in function 3");
    let damaged = AskAnswer::Damaged { function: 3, compared: 2 };
    let words = "44, the function landed on covers the PC and breaks one of the rules 9 to 13, in function 3";
    says(damaged, 44, words);
    says(AskAnswer::Unsorted, 45, "45, the sorted flag is not set, and only a sorted section can be asked");
}
