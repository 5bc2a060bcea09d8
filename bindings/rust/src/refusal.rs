//! Why an answer is not given: every number of a refusal, with its words.

use core::error::Error;
use core::fmt::{self, Display, Formatter};

/// A rule that a section breaks, the first in the order of trying. Its number is 1 to 15.
#[derive(Clone, Copy, Debug, PartialEq, Eq, PartialOrd, Ord, Hash)]
pub enum Rule {
    /// Fewer than 28 bytes.
    Short = 1,
    /// More than 16,777,216 bytes.
    Long = 2,
    /// The magic is neither byte order's.
    Magic = 3,
    /// The version is not 2.
    Version = 4,
    /// A flag outside 0x07 is set.
    Flags = 5,
    /// The ABI is not 1, 2 or 3, or disagrees with the byte order.
    Abi = 6,
    /// The fixed FP and RA offsets are not those of the ABI.
    Fixed = 7,
    /// The function table, the row area and the length do not fit together.
    Sizes = 8,
    /// An entry's info has bit 6 or 7 set, or a row type above 2.
    EntryInfo = 9,
    /// An entry has repeated blocks of size 0.
    RepeatSize = 10,
    /// The rows of an entry lie outside the row bytes.
    RowsInside = 11,
    /// A row's info has offset size 3, or a count that is not allowed.
    RowInfo = 12,
    /// A row start is not above the one before it.
    RowsRising = 13,
    /// The sorted flag is set, and a start is below the end of the entry before it.
    Sorted = 14,
    /// The row counts of all entries do not add up to the header's.
    RowSum = 15,
}

/// Why a step or a trace is refused on a sound section, or before it is looked at. Its number is 21 to 28 or 41 to 43.
#[derive(Clone, Copy, Debug, PartialEq, Eq, PartialOrd, Ord, Hash)]
pub enum Refusal {
    /// No function covers the PC that is looked up; or there is none, since PC is 0 without the first-frame mark.
    NoFunction = 21,
    /// Two or more functions cover the PC that is looked up.
    Dispute = 22,
    /// No row of the function starts at or below the PC that is looked up.
    NoRow = 23,
    /// The return address is signed (AArch64), and the mask is 0.
    Signed = 24,
    /// CFA is outside 0 to 2^64 - 1.
    CfaOutside = 25,
    /// CFA is below SP, or equal to it without the first-frame mark.
    CfaLow = 26,
    /// RA has no place: only the first frame has it in LR (AArch64).
    RaLost = 27,
    /// A needed word is not wholly inside the stack window.
    WordOutside = 28,
    /// The stack window ends above 2^64.
    Window = 41,
    /// The limit is above 256.
    LimitAbove = 42,
    /// The buffer has fewer than 3 words for each frame of the limit; limit 0 asks for
    /// [`USUAL_WORDS`](crate::USUAL_WORDS).
    TooFewWords = 43,
}

/// A section is not sound: the rule that it breaks, and where.
#[derive(Clone, Copy, Debug, PartialEq, Eq, Hash)]
pub struct Unsound {
    /// The first broken rule, in the order of trying.
    pub rule: Rule,
    /// The index of the entry that breaks it, for rules 9 to 14; otherwise 0.
    pub index: u64,
}

const RULES: [Rule; 15] = [
    Rule::Short,
    Rule::Long,
    Rule::Magic,
    Rule::Version,
    Rule::Flags,
    Rule::Abi,
    Rule::Fixed,
    Rule::Sizes,
    Rule::EntryInfo,
    Rule::RepeatSize,
    Rule::RowsInside,
    Rule::RowInfo,
    Rule::RowsRising,
    Rule::Sorted,
    Rule::RowSum,
];

const REFUSALS: [Refusal; 11] = [
    Refusal::NoFunction,
    Refusal::Dispute,
    Refusal::NoRow,
    Refusal::Signed,
    Refusal::CfaOutside,
    Refusal::CfaLow,
    Refusal::RaLost,
    Refusal::WordOutside,
    Refusal::Window,
    Refusal::LimitAbove,
    Refusal::TooFewWords,
];

impl Rule {
    /// The rule's number.
    ///
    /// ```
    /// assert_eq!(suntimpani::Rule::Sizes.number(), 8);
    /// ```
    pub fn number(self) -> u64 {
        self as u64
    }

    /// The rule of a number.
    ///
    /// ```
    /// use suntimpani::Rule;
    ///
    /// assert_eq!(Rule::of(8), Some(Rule::Sizes));
    /// assert_eq!(Rule::of(16), None);
    /// ```
    pub fn of(number: u64) -> Option<Rule> {
        RULES.into_iter().find(|rule| rule.number() == number)
    }

    fn words(self) -> &'static str {
        match self {
            Rule::Short => "fewer than 28 bytes",
            Rule::Long => "more than 16,777,216 bytes",
            Rule::Magic => "the magic is neither byte order's",
            Rule::Version => "the version is not 2",
            Rule::Flags => "a flag outside 0x07 is set",
            Rule::Abi => "the ABI is not 1, 2 or 3, or disagrees with the byte order",
            Rule::Fixed => "the fixed FP and RA offsets are not those of the ABI",
            Rule::Sizes => "the function table, the row area and the length do not fit together",
            Rule::EntryInfo => "an entry's info has bit 6 or 7 set, or a row type above 2",
            Rule::RepeatSize => "an entry has repeated blocks of size 0",
            Rule::RowsInside => "the rows of an entry lie outside the row bytes",
            Rule::RowInfo => "a row's info has offset size 3, or a count that is not allowed",
            Rule::RowsRising => "a row start is not above the one before it",
            Rule::Sorted => "the sorted flag is set, and a start is below the end of the entry before it",
            Rule::RowSum => "the row counts of all entries do not add up to the header's",
        }
    }

    // Rules 9 to 14 are on one entry.
    fn is_of_an_entry(self) -> bool {
        (Rule::EntryInfo..=Rule::Sorted).contains(&self)
    }
}

impl Refusal {
    /// The refusal's number.
    ///
    /// ```
    /// assert_eq!(suntimpani::Refusal::WordOutside.number(), 28);
    /// ```
    pub fn number(self) -> u64 {
        self as u64
    }

    /// The refusal of a number.
    ///
    /// ```
    /// use suntimpani::Refusal;
    ///
    /// let refusal = Refusal::of(21).expect("21 is a refusal's");
    /// assert_eq!(refusal.to_string(), "21, no function covers the PC");
    /// assert_eq!(Refusal::of(29), None);
    /// ```
    pub fn of(number: u64) -> Option<Refusal> {
        REFUSALS.into_iter().find(|refusal| refusal.number() == number)
    }

    fn words(self) -> &'static str {
        match self {
            Refusal::NoFunction => "no function covers the PC",
            Refusal::Dispute => "two or more functions cover the PC",
            Refusal::NoRow => "no row of the function starts at or below the PC",
            Refusal::Signed => "the return address is signed, and no mask says by which bits",
            Refusal::CfaOutside => "CFA is outside 0 to 2^64 - 1",
            Refusal::CfaLow => "CFA is below SP, or equal to it without the first-frame mark",
            Refusal::RaLost => "RA has no place: only the first frame has it in LR",
            Refusal::WordOutside => "a needed word is not wholly inside the stack window",
            Refusal::Window => "the stack window ends above 2^64",
            Refusal::LimitAbove => "the limit is above 256",
            Refusal::TooFewWords => "the buffer has fewer than 3 words for each frame of the limit",
        }
    }
}

impl Unsound {
    /// What a call answers with a number that is none of its others. By the library's contract it is then 1 to 15.
    pub(crate) fn of(number: u64, index: u64) -> Unsound {
        let Some(rule) = Rule::of(number) else { unreachable!("{number} is the number of no rule for sections") };
        Unsound { rule, index }
    }

    /// The rule's number.
    ///
    /// ```
    /// use suntimpani::example::SECTION_S;
    /// use suntimpani::{check, Verdict};
    ///
    /// let Verdict::Refused(unsound) = check(&SECTION_S[..27]) else { panic!("27 bytes are too few") };
    /// assert_eq!(unsound.number(), 1);
    /// ```
    pub fn number(self) -> u64 {
        self.rule.number()
    }
}

impl Display for Rule {
    fn fmt(&self, out: &mut Formatter<'_>) -> fmt::Result {
        write!(out, "{}, {}", self.number(), self.words())
    }
}

impl Display for Refusal {
    fn fmt(&self, out: &mut Formatter<'_>) -> fmt::Result {
        write!(out, "{}, {}", self.number(), self.words())
    }
}

impl Display for Unsound {
    fn fmt(&self, out: &mut Formatter<'_>) -> fmt::Result {
        match self.rule.is_of_an_entry() {
            true => write!(out, "{}, in function {}", self.rule, self.index),
            false => write!(out, "{}", self.rule),
        }
    }
}

impl Error for Rule {}
impl Error for Refusal {}
impl Error for Unsound {}
