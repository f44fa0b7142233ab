//! Why a call is refused: docs/REFUSALS.md.

use std::fmt;

#[derive(Clone, Copy, PartialEq, Eq, Debug)]
pub enum Refusal {
    AboveLimit,
    SheetFull,
    NoOperator,
    NotUpward,
    EdgeExists,
    CountAboveLimit,
    TooManyIdeals,
    TooFewCells,
    NoLawfulSplit,
    NoSplit,
    NoStage,
    NotASheetFile,
    ContentsEntry {
        index: u64,
    },
    BodyEntry {
        section: u64,
        index: u64,
        reason: Reason,
    },
    BufferTooShort,
}

/// What is wrong with an entry of a body.
#[derive(Clone, Copy, PartialEq, Eq, Debug)]
pub enum Reason {
    AboveLimit,
    NoOperator,
    NotUpward,
    NotAscending,
    CountAboveLimit,
}

/// A refusal as it is told: its number, and its values, which are 0 where it has none.
#[derive(Clone, Copy, PartialEq, Eq)]
pub struct Told {
    pub number: u64,
    pub section: u64,
    pub entry: u64,
    pub reason: u64,
}

impl fmt::Debug for Told {
    fn fmt(&self, to: &mut fmt::Formatter<'_>) -> fmt::Result {
        let Told {
            number,
            section,
            entry,
            reason,
        } = self;
        write!(
            to,
            "refused {number} (section {section}, entry {entry}, reason {reason})"
        )
    }
}

impl Reason {
    fn number(self) -> u64 {
        match self {
            Reason::AboveLimit => 1,
            Reason::NoOperator => 3,
            Reason::NotUpward => 4,
            Reason::NotAscending => 5,
            Reason::CountAboveLimit => 6,
        }
    }
}

impl From<Refusal> for Told {
    fn from(refusal: Refusal) -> Told {
        let told = Told {
            number: refusal.number(),
            section: 0,
            entry: 0,
            reason: 0,
        };
        match refusal {
            Refusal::ContentsEntry { index } => Told {
                entry: index,
                ..told
            },
            Refusal::BodyEntry {
                section,
                index,
                reason,
            } => Told {
                section,
                entry: index,
                reason: reason.number(),
                ..told
            },
            _ => told,
        }
    }
}

impl Refusal {
    fn number(self) -> u64 {
        match self {
            Refusal::AboveLimit => 1,
            Refusal::SheetFull => 2,
            Refusal::NoOperator => 3,
            Refusal::NotUpward => 4,
            Refusal::EdgeExists => 5,
            Refusal::CountAboveLimit => 6,
            Refusal::TooManyIdeals => 7,
            Refusal::TooFewCells => 8,
            Refusal::NoLawfulSplit => 9,
            Refusal::NoSplit => 10,
            Refusal::NoStage => 11,
            Refusal::NotASheetFile => 12,
            Refusal::ContentsEntry { .. } => 13,
            Refusal::BodyEntry { .. } => 14,
            Refusal::BufferTooShort => 15,
        }
    }
}
