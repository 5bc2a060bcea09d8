//! One address of a huge section: the function and the row for a PC, without a check of the whole section.

use crate::calls;
use crate::look::Row;
use crate::refusal::{Refusal, Unsound};
use core::fmt::{self, Display, Formatter};

/// What [`ask`](ask()) answers. Indexes and numbers count from 0.
///
/// The function landed on is the last of the entries compared that starts at or below the PC. No other function is
/// spoken of, so that there is no dispute, 22; and the section is not checked whole, so that of the rules for sections
/// only 1 to 8 are given. In words it is what `sframe ask` says in its first line, behind `found: ` or `refused: `.
#[derive(Clone, Copy, Debug, PartialEq, Eq)]
pub enum AskAnswer {
    /// The function landed on covers the PC, and this is its row there.
    Found {
        /// The function's index.
        function: u64,
        /// The row's number in the function.
        number: u64,
        /// The row.
        row: Row,
        /// How many entries were compared, at most 20.
        compared: u64,
    },
    /// 1 to 8: the header breaks this rule, with index 0.
    Unsound(Unsound),
    /// 45: the sorted flag is not set. [`lookup`](crate::lookup) finds its way in such a section.
    Unsorted,
    /// 21: no function was landed on, or it does not cover the PC.
    NoFunction {
        /// How many entries were compared.
        compared: u64,
    },
    /// 23: the function landed on covers the PC and has no row that starts at or below it.
    NoRow {
        /// The function's index.
        function: u64,
        /// How many entries were compared.
        compared: u64,
    },
    /// 44: the function landed on covers the PC and breaks one of the rules 9 to 13.
    Damaged {
        /// The function's index.
        function: u64,
        /// How many entries were compared.
        compared: u64,
    },
}

/// The function and the row for a PC as [`lookup`](crate::lookup) finds them, in a section that is not checked whole.
/// Read are the header, the entries that are compared in halving the sorted function table, and where the function
/// landed on covers the PC its rows, up to the first that breaks a rule. The PC is taken as it is: ask for a return
/// address minus 1.
///
/// In a sorted section that [`check`](crate::check) accepts, the answer is that of a lookup: a sampling tool has the
/// section checked once, and asks for millions of addresses.
///
/// ```
/// use suntimpani::example::SECTION_S;
/// use suntimpani::{ask, check, AskAnswer, Verdict};
///
/// assert_eq!(check(&SECTION_S), Verdict::Accepted);
/// let samples = [0x40_1003, 0x40_101f, 0x40_1020, 0x40_1044];
/// let functions = samples.map(|pc| match ask(&SECTION_S, 0x40_0000, pc) {
///     AskAnswer::Found { function, .. } => Some(function),
///     _ => None,
/// });
/// assert_eq!(functions, [Some(0), Some(0), None, Some(1)]);
/// ```
///
/// In any other section an answer speaks of the function landed on alone: what is wrong elsewhere is not seen, another
/// function may cover the PC too, and after 21 one may all the same.
///
/// ```
/// use suntimpani::example::SECTION_S;
/// use suntimpani::{ask, lookup, AskAnswer};
///
/// // A row of the first function has no offsets.
/// let mut section = SECTION_S;
/// section[72] = 0;
/// assert_eq!(lookup(&section, 0x40_0000, 0x40_1044).outcome.number(), 12);
/// assert_eq!(ask(&section, 0x40_0000, 0x40_1044).number(), 0);
/// assert_eq!(ask(&section, 0x40_0000, 0x40_1003), AskAnswer::Damaged { function: 0, compared: 2 });
/// ```
pub fn ask(section: &[u8], address: u64, pc: u64) -> AskAnswer {
    let said = calls::ask(section, address, pc);
    let (function, compared) = (said.function, said.compared);
    match said.number {
        0 => AskAnswer::Found { function, number: said.row, row: Row::of(&said.told), compared },
        number @ 1..=8 => AskAnswer::Unsound(Unsound::of(number, 0)),
        21 => AskAnswer::NoFunction { compared },
        23 => AskAnswer::NoRow { function, compared },
        44 => AskAnswer::Damaged { function, compared },
        45 => AskAnswer::Unsorted,
        // By the library's contract.
        other => unreachable!("{other} is given to no one who asks"),
    }
}

impl AskAnswer {
    /// The number of the refusal, or 0 where a row is found.
    ///
    /// ```
    /// # use suntimpani::{ask, example::SECTION_S};
    /// assert_eq!(ask(&SECTION_S, 0x40_0000, 0x40_1003).number(), 0);
    /// assert_eq!(ask(&SECTION_S, 0x40_0000, 0x40_1020).number(), 21);
    /// ```
    pub fn number(self) -> u64 {
        match self {
            AskAnswer::Found { .. } => 0,
            AskAnswer::Unsound(unsound) => unsound.number(),
            AskAnswer::NoFunction { .. } => 21,
            AskAnswer::NoRow { .. } => 23,
            AskAnswer::Damaged { .. } => 44,
            AskAnswer::Unsorted => 45,
        }
    }
}

impl Display for AskAnswer {
    fn fmt(&self, out: &mut Formatter<'_>) -> fmt::Result {
        match self {
            AskAnswer::Found { function, number, row, .. } => {
                write!(out, "function {function}, row {number}, which starts at {}", row.start)
            }
            AskAnswer::Unsound(unsound) => write!(out, "{unsound}"),
            AskAnswer::Unsorted => {
                write!(out, "45, the sorted flag is not set, and only a sorted section can be asked")
            }
            AskAnswer::NoFunction { .. } => write!(out, "21, no function that covers the PC was landed on"),
            AskAnswer::NoRow { function, .. } => write!(out, "{}, in function {function}", Refusal::NoRow),
            AskAnswer::Damaged { function, .. } => {
                let words = "the function landed on covers the PC and breaks one of the rules 9 to 13";
                write!(out, "44, {words}, in function {function}")
            }
        }
    }
}
