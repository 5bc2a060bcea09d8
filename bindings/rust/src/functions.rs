//! A function by its index, and every function of a section in turn.

use crate::calls;
use crate::refusal::Unsound;
use core::iter::FusedIterator;

/// What a section says of a function: its entry, as it stands. The address of the function is that of the section's
/// first byte plus `start`.
#[derive(Clone, Copy, Debug, PartialEq, Eq)]
pub struct Function {
    /// Where it starts, in bytes from the section's first byte; below 0 where it lies before it.
    pub start: i64,
    /// How many bytes it has.
    pub size: u64,
    /// How many rows it has.
    pub rows: u64,
    /// What its rows are of.
    pub block: Block,
}

/// What the rows of a function are of.
#[derive(Clone, Copy, Debug, PartialEq, Eq)]
pub enum Block {
    /// The whole function.
    Plain,
    /// A block of so many bytes that is repeated. They are 0 only in a section that is not accepted.
    Repeated(u64),
}

/// The function with an index, as a lookup names it, or none where the index is not below the number of functions.
///
/// Rules 1 to 8 are tried, and one entry is read; nothing else of the section is looked at, so that the time does not
/// grow with it. It speaks of the entry as it stands, also in a section that [`check`](crate::check) refuses with 9 to
/// 15: there its rows may lie anywhere or not be there, and its start may be out of order. A refusal has index 0.
///
/// ```
/// use suntimpani::example::SECTION_S;
/// use suntimpani::{function_at, lookup, Block, Function, Outcome, Rule, Unsound};
///
/// let address = 0x40_0000_u64;
/// let Outcome::Found { function, .. } = lookup(&SECTION_S, address, 0x40_1044).outcome else { panic!("a row") };
/// let Ok(Some(second)) = function_at(&SECTION_S, function) else { panic!("an accepted section has what it names") };
/// assert_eq!(second, Function { start: 0x1040, size: 0x10, rows: 1, block: Block::Plain });
/// assert_eq!(address.wrapping_add_signed(second.start), 0x40_1040);
///
/// assert_eq!(function_at(&SECTION_S, 2), Ok(None));
/// assert_eq!(function_at(&SECTION_S[..77], 0), Err(Unsound { rule: Rule::Sizes, index: 0 }));
/// ```
pub fn function_at(section: &[u8], index: u64) -> Result<Option<Function>, Unsound> {
    let said = calls::function_at(section, index);
    match (said.number, said.known) {
        (0, 0) => Ok(None),
        (0, 1) => Ok(Some(Function::of(&said))),
        // By the library's contract.
        (0, other) => unreachable!("{other} is no bit"),
        (number, _) => Err(Unsound::of(number, 0)),
    }
}

/// Every function of a section, in the order of their indexes, each read when it is asked for. The same is tried as by
/// [`function_at`], once at the beginning.
///
/// ```
/// use suntimpani::example::SECTION_S;
/// use suntimpani::functions;
///
/// let all = functions(&SECTION_S).expect("the header is sound");
/// let ends: Vec<u64> = all.map(|function| 0x40_0000_u64.wrapping_add_signed(function.start) + function.size).collect();
/// assert_eq!(ends, [0x40_1020, 0x40_1050]);
/// ```
///
/// With [`rows`](crate::rows()) it gives the listing of a whole section:
///
/// ```
/// use suntimpani::example::SECTION_S;
/// use suntimpani::{check, functions, rows, Verdict};
///
/// assert_eq!(check(&SECTION_S), Verdict::Accepted);
/// let mut lines = Vec::new();
/// for (index, function) in (0..).zip(functions(&SECTION_S).expect("an accepted section has a sound header")) {
///     lines.push(format!("function {index}, {} bytes at {}", function.size, function.start));
///     lines.extend(rows(&SECTION_S, index).map(|row| format!("  from {} on {:?}{:+}", row.start, row.base, row.cfa)));
/// }
/// let first = ["function 0, 32 bytes at 4096", "  from 0 on Sp+8", "  from 4 on Fp+16"];
/// assert_eq!(lines, [&first[..], &["function 1, 16 bytes at 4160", "  from 0 on Sp+8"]].concat());
/// ```
pub fn functions(section: &[u8]) -> Result<Functions<'_>, Unsound> {
    function_at(section, 0).map(|_| Functions { section, index: 0 })
}

/// The functions of a section from an index on: what [`functions`](functions()) gives.
#[derive(Clone, Debug)]
pub struct Functions<'section> {
    section: &'section [u8],
    index: u64,
}

impl Iterator for Functions<'_> {
    type Item = Function;

    // The header was found sound, and the bytes stay what they are as long as they are lent.
    fn next(&mut self) -> Option<Function> {
        let function = function_at(self.section, self.index).ok().flatten()?;
        self.index += 1;
        Some(function)
    }
}

impl FusedIterator for Functions<'_> {}

impl Function {
    fn of(said: &calls::Function) -> Function {
        let block = match said.repeated {
            0 => Block::Plain,
            1 => Block::Repeated(said.repeat),
            // By the library's contract.
            other => unreachable!("{other} is no bit"),
        };
        Function { start: said.start, size: said.size, rows: said.rows, block }
    }
}
