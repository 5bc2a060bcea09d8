//! A function by its index, and every function in turn, through the safe surface: in sections accepted and refused.

use suntimpani::example::SECTION_S as S;
use suntimpani::{check, function_at, functions};
use suntimpani::{Block, Function, Rule, Unsound, Verdict};

const FIRST: Function = Function { start: 0x1000, size: 0x20, rows: 2, block: Block::Plain };
const SECOND: Function = Function { start: 0x1040, size: 0x10, rows: 1, block: Block::Plain };

/// S with other bytes at some places.
fn changed(bytes: &[(usize, u8)]) -> [u8; 78] {
    let mut section = S;
    bytes.iter().for_each(|&(at, byte)| section[at] = byte);
    section
}

#[test]
fn functions_are_known_by_their_indexes() {
    assert_eq!(function_at(&S, 0), Ok(Some(FIRST)));
    assert_eq!(function_at(&S, 1), Ok(Some(SECOND)));
    for index in [2, 3, 1 << 32, (1 << 32) + 1, u64::MAX] {
        assert_eq!(function_at(&S, index), Ok(None), "{index}");
    }
}

#[test]
fn a_header_that_breaks_a_rule_has_no_functions() {
    let refused = |section: &[u8], rule| {
        let unsound = Unsound { rule, index: 0 };
        assert_eq!(check(section), Verdict::Refused(unsound));
        for index in [0, 1, 2, u64::MAX] {
            assert_eq!(function_at(section, index), Err(unsound), "{index}");
        }
        assert_eq!(functions(section).map(Iterator::count), Err(unsound));
    };
    refused(&[], Rule::Short);
    refused(&S[..27], Rule::Short);
    refused(&vec![0; 16_777_217], Rule::Long);
    refused(&changed(&[(0, 0)]), Rule::Magic);
    refused(&changed(&[(2, 1)]), Rule::Version);
    refused(&changed(&[(3, 8)]), Rule::Flags);
    refused(&changed(&[(4, 1)]), Rule::Abi);
    refused(&changed(&[(6, 0)]), Rule::Fixed);
    refused(&S[..77], Rule::Sizes);
}

#[test]
fn blocks_and_relative_starts_are_told() {
    let repeated = changed(&[(44, 0x10), (45, 16)]);
    assert_eq!(check(&repeated), Verdict::Accepted);
    assert_eq!(function_at(&repeated, 0), Ok(Some(Function { block: Block::Repeated(16), ..FIRST })));
    // The repeat size of a plain function is not told.
    assert_eq!(function_at(&changed(&[(45, 16)]), 0), Ok(Some(FIRST)));
    let relative = changed(&[(3, 4), (30, 0xff), (31, 0xff)]);
    assert_eq!(check(&relative), Verdict::Accepted);
    assert_eq!(function_at(&relative, 0), Ok(Some(Function { start: 28 - 0xf000, ..FIRST })));
    assert_eq!(function_at(&relative, 1), Ok(Some(Function { start: 48 + 0x1040, ..SECOND })));
}

#[test]
fn an_entry_is_told_as_it_stands() {
    let told = |bytes: &[(usize, u8)], rule, index, function| {
        let section = changed(bytes);
        assert!(matches!(check(&section), Verdict::Refused(unsound) if unsound.rule == rule), "{rule}");
        assert_eq!(function_at(&section, index), Ok(Some(function)), "{rule}");
    };
    told(&[(44, 0xcf)], Rule::EntryInfo, 0, FIRST);
    told(&[(44, 0x10)], Rule::RepeatSize, 0, Function { block: Block::Repeated(0), ..FIRST });
    told(&[(39, 0xff)], Rule::RowsInside, 0, FIRST);
    told(&[(69, 0)], Rule::RowInfo, 0, FIRST);
    told(&[(43, 0xff)], Rule::RowsRising, 0, Function { rows: 0xff00_0002, ..FIRST });
    told(&[(48, 0x1f)], Rule::Sorted, 1, Function { start: 0x101f, ..SECOND });
    told(&[(12, 4)], Rule::RowSum, 1, SECOND);
}

#[test]
fn every_function_comes_once() {
    let mut all = functions(&S).expect("the header is sound");
    let again = all.clone();
    assert_eq!([all.next(), all.next(), all.next(), all.next()], [Some(FIRST), Some(SECOND), None, None]);
    assert_eq!(again.collect::<Vec<_>>(), [FIRST, SECOND]);
    // A header by itself has no functions.
    let mut none = [0; 28];
    none[..8].copy_from_slice(&S[..8]);
    assert_eq!(check(&none), Verdict::Accepted);
    assert_eq!(functions(&none).map(Iterator::count), Ok(0));
}
