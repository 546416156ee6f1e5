//! What a call answers, and the numbers by which answers are told.

/// Why a call was not accepted.
#[derive(Clone, Copy, Debug, PartialEq, Eq)]
pub enum Refusal {
    SlotAbove255,
    RecordNotLent,
    NeitherReaderNorWriter,
    SlotFree,
    WrongPhase,
    AllSlotsInUse,
    WrongNumberOfWords,
    OpenByAFencedNode,
    SlotOfAFencedNode,
    SlotOfAnUnfencedNode,
}

impl Refusal {
    pub const fn number(self) -> u8 {
        match self {
            Refusal::SlotAbove255 => 1,
            Refusal::RecordNotLent => 2,
            Refusal::NeitherReaderNorWriter => 3,
            Refusal::SlotFree => 4,
            Refusal::WrongPhase => 5,
            Refusal::AllSlotsInUse => 6,
            Refusal::WrongNumberOfWords => 9,
            Refusal::OpenByAFencedNode => 14,
            Refusal::SlotOfAFencedNode => 15,
            Refusal::SlotOfAnUnfencedNode => 16,
        }
    }
}

/// What an accepted call came to.
#[derive(Clone, Copy, Debug, PartialEq, Eq)]
pub enum Outcome {
    Opened { slot: u8 },
    Granted,
    Waiting { ahead: u32 },
    Full,
    Withdrawn,
    Released,
    ClearingDue,
    Cleared,
    NotYetClear,
    Shown { word: u64 },
    Passed,
    FreedUnasked,
    Fenced,
}

impl Outcome {
    pub const fn number(self) -> u8 {
        match self {
            Outcome::Opened { .. } => 1,
            Outcome::Granted => 2,
            Outcome::Waiting { .. } => 3,
            Outcome::Full => 4,
            Outcome::Withdrawn => 5,
            Outcome::Released => 6,
            Outcome::ClearingDue => 7,
            Outcome::Cleared => 8,
            Outcome::NotYetClear => 9,
            Outcome::Shown { .. } => 10,
            Outcome::Passed => 11,
            Outcome::FreedUnasked => 12,
            Outcome::Fenced => 13,
        }
    }

    /// The value that a report gives beside the outcome.
    pub fn value(self) -> u64 {
        match self {
            Outcome::Waiting { ahead } => u64::from(ahead),
            Outcome::Shown { word } => word,
            _ => 0,
        }
    }
}

pub type Answer = Result<Outcome, Refusal>;
