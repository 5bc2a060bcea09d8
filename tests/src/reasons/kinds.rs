//! The kinds of explanations, by which it is counted how often each comes.
#![forbid(unsafe_code)]

use crate::reader::{FoundRow, LookupWhy, Place, SavedWord, StepWhy, Sum, Then, Unfound};

/// Of lookups first, and then of steps.
#[derive(Clone, Copy, Debug, PartialEq, Eq, PartialOrd, Ord)]
pub enum Kind {
    LookupRefused,
    LookupWithNext,
    LookupWithoutNext,
    Lookup21BothSides,
    Lookup21NoneBelow,
    Lookup21NoneAbove,
    Lookup21NoneAtAll,
    Lookup22UpTo16,
    Lookup22MoreThan16,
    Lookup23FirstRow,
    Lookup23NoRows,
    Step41,
    StepRefused,
    StepNothingAsked,
    Step21,
    Step22,
    Step23,
    Step24,
    Step25Below,
    Step25Above,
    Step26Below,
    Step26Equal,
    Step27,
    Step28Ra,
    Step28Fp,
    CallerByStack,
    CallerByLr,
}

use Kind::*;

impl Kind {
    pub const ALL: [Kind; 27] = [
        LookupRefused,
        LookupWithNext,
        LookupWithoutNext,
        Lookup21BothSides,
        Lookup21NoneBelow,
        Lookup21NoneAbove,
        Lookup21NoneAtAll,
        Lookup22UpTo16,
        Lookup22MoreThan16,
        Lookup23FirstRow,
        Lookup23NoRows,
        Step41,
        StepRefused,
        StepNothingAsked,
        Step21,
        Step22,
        Step23,
        Step24,
        Step25Below,
        Step25Above,
        Step26Below,
        Step26Equal,
        Step27,
        Step28Ra,
        Step28Fp,
        CallerByStack,
        CallerByLr,
    ];

    pub fn of_lookup(why: &LookupWhy) -> Kind {
        match why {
            LookupWhy::Unsound(_) => LookupRefused,
            LookupWhy::Found(FoundRow { next: Some(_), .. }) => LookupWithNext,
            LookupWhy::Found(FoundRow { next: None, .. }) => LookupWithoutNext,
            LookupWhy::Unfound(Unfound::NoFunction { below, above }) => match (below, above) {
                (Some(_), Some(_)) => Lookup21BothSides,
                (None, Some(_)) => Lookup21NoneBelow,
                (Some(_), None) => Lookup21NoneAbove,
                (None, None) => Lookup21NoneAtAll,
            },
            LookupWhy::Unfound(Unfound::Disputed { count: ..=16, .. }) => Lookup22UpTo16,
            LookupWhy::Unfound(Unfound::Disputed { .. }) => Lookup22MoreThan16,
            LookupWhy::Unfound(Unfound::NoRow { first: Some(_), .. }) => Lookup23FirstRow,
            LookupWhy::Unfound(Unfound::NoRow { first: None, .. }) => Lookup23NoRows,
        }
    }

    pub fn of_step(why: &StepWhy) -> Kind {
        match why {
            StepWhy::PastTheEnd { .. } => Step41,
            StepWhy::Unsound(_) => StepRefused,
            StepWhy::NothingAsked => StepNothingAsked,
            StepWhy::Unfound { why: Unfound::NoFunction { .. }, .. } => Step21,
            StepWhy::Unfound { why: Unfound::Disputed { .. }, .. } => Step22,
            StepWhy::Unfound { why: Unfound::NoRow { .. }, .. } => Step23,
            StepWhy::Found { found, then, .. } => Kind::behind(found, then),
        }
    }

    fn behind(found: &FoundRow, then: &Then) -> Kind {
        match then {
            Then::NoMask { .. } => Step24,
            Then::Outside { sum: Sum::Below(_), .. } => Step25Below,
            Then::Outside { .. } => Step25Above,
            Then::TooLow { caller_sp, sp, .. } if caller_sp < sp => Step26Below,
            Then::TooLow { .. } => Step26Equal,
            Then::NoPlace { .. } => Step27,
            Then::NotInside { word: SavedWord::Ra, .. } => Step28Ra,
            Then::NotInside { word: SavedWord::Fp, .. } => Step28Fp,
            Then::Caller { .. } if found.row.ra == Place::Register => CallerByLr,
            Then::Caller { .. } => CallerByStack,
        }
    }
}
